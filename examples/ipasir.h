/* ipasir.h: what round_trip.c uses of IPASIR, the interface that incremental SAT solvers share.
 *
 * Debian's libcadical-dev has these functions and no header for them. Any other solver that has them will do. The whole
 * interface has a few more functions: Balyo, Biere, Iser, Sinz, "SAT Race 2015", Artificial Intelligence 241 (2016).
 */

#ifndef IPASIR_H
#define IPASIR_H

#ifdef __cplusplus
extern "C" {
#endif

/* What ipasir_solve answers; 0 is neither. */
#define IPASIR_YES 10
#define IPASIR_NO 20

void *ipasir_init(void);
void ipasir_release(void *solver);

/* Adds a literal to the clause that is being written, or ends it: 0. */
void ipasir_add(void *solver, int literal_or_0);

/* Has the literal hold for the next ipasir_solve alone. */
void ipasir_assume(void *solver, int literal);

int ipasir_solve(void *solver);

/* After a yes: the literal where it is true, its negation where it is false, 0 where both will do. */
int ipasir_val(void *solver, int literal);

#ifdef __cplusplus
}
#endif

#endif /* IPASIR_H */
