/* A solver that always says REPLY and has every variable true: what a program must not believe. */
#include "../examples/ipasir.h"

#include <stddef.h>

void *ipasir_init(void) { return NULL; }
void ipasir_release(void *solver) { (void)solver; }
void ipasir_add(void *solver, int literal_or_0) { (void)solver, (void)literal_or_0; }
void ipasir_assume(void *solver, int literal) { (void)solver, (void)literal; }
int ipasir_solve(void *solver) { return (void)solver, REPLY; }
int ipasir_val(void *solver, int literal) { return (void)solver, literal; }
