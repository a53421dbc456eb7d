/* The weighing program: a helper, called one deeper, lists the transaction's weights on the heap; its caller adds them up. */
#include "guest.h"

/* Volatile: each access below is one that the machine makes. */
typedef volatile struct cell cell_record;

/* The helper: the address of the list's first cell. It grows a page for the cells: to its caller's it must not store. */
static uint64_t list_weights(void) {
    volatile const uint64_t *weights = (volatile const uint64_t *)TRANSACTION + 1;
    cell_record *cell = (cell_record *)LIST;
    uint64_t count = weights[-1], first = 0;
    service_heap(HEAP_PAGES + 1);
    for (uint64_t i = 0; i < count; i++, cell++) {
        cell->weight = weights[i];
        cell->next = first;
        first = (uint64_t)cell;
    }
    return first;
}

/* The sum of the weights. The caller stores to the helper's page, too: the sum so far, into each cell. */
int64_t main(void) {
    volatile uint64_t *first = (volatile uint64_t *)HEAP;
    int64_t sum = 0;
    *first = service_call(list_weights);
    for (cell_record *cell = (cell_record *)*first; cell != 0; cell = (cell_record *)cell->next) {
        sum += cell->weight;
        cell->sum = sum;
    }
    return sum;
}
