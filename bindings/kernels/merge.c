/* Adds another state of fold.c to a state. */
void merge(unsigned *state, const unsigned *other) {
    state[0] += other[0];
    state[1] += other[1];
}
