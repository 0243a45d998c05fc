/* Threads that make calls by one seat, though each seat is for one: of two at once the second one is refused. */
#include "vector.pml"

proctype thread(byte id) {
    LOCALS;
    byte round;
    do
    :: round < ROUNDS ->
        round++;
        cvec_seat_grow();
        when(answer == DONE, cvec_seat_settle(0));
        atomic { answer = DONE; number = 0 }
    :: round == ROUNDS -> break
    od
}

init {
    byte id;
    atomic {
        at[0] = LISTED; grower[0] = phases; seats++; free_seats--;
        run chance();
        for (id : 0 .. THREADS - 1) {
            run thread(id)
        };
        id = 0
    }
}
