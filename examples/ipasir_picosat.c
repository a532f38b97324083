/* ipasir_picosat.c: PicoSAT behind the functions of ipasir.h, for programs that want a solver without them.
 *
 * Needs Debian's package picosat. A solver that has these functions itself, as CaDiCaL does, needs no such file.
 */
#include <picosat/picosat.h>

#include "ipasir.h"

void *ipasir_init(void) { return picosat_init(); }

void ipasir_release(void *solver) { picosat_reset(solver); }

void ipasir_add(void *solver, int literal_or_0) { picosat_add(solver, literal_or_0); }

void ipasir_assume(void *solver, int literal) { picosat_assume(solver, literal); }

/* No limit of decisions. PicoSAT's own answers are 10, 20 and 0 too. */
int ipasir_solve(void *solver) { return picosat_sat(solver, -1); }

int ipasir_val(void *solver, int literal) { return picosat_deref(solver, literal) * literal; }
