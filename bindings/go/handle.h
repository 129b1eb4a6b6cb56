/* What the Go package does in C: one call of C for several calls of the library. A value stays in
 * Go; what passes through the queue is the number of the slot in which Go keeps it. */
#ifndef SCQ_GO_HANDLE_H
#define SCQ_GO_HANDLE_H

#include "scq.h"

/* How many values a step puts, and how many it gets. */
#define SCQ_GO_MOST 32

/* What one goroutine at a time makes its steps with. */
typedef struct scq_go_handle {
    scq_port port;
    uint32_t to_put, put; /* how many slots are to be put, and how many were */
    uint32_t to_get, got;
    uint32_t freed;      /* how many buffers were given back */
    uint32_t put_answer; /* SCQ_OK, or what stopped it */
    uint32_t get_answer;
    uint32_t slots_put[SCQ_GO_MOST], slots_got[SCQ_GO_MOST];
} scq_go_handle;

/* A queue with room for just so many values, and so many handles, which begin at `*out`. */
uint32_t scq_go_open(uint32_t room, uint32_t handles, scq_go_handle **out);

/* Puts what is to be put and gets what is to be got, as far as there is room and there are values.
 * A buffer that a value is taken from takes the next one that is to be put. The handle is named by
 * the number of its address, which spares Go a look at it. */
void scq_go_step(uintptr_t handle);

/* Nothing is put by this handle any more. */
void scq_go_retire(uintptr_t handle);

/* Closes all. */
void scq_go_close(scq_go_handle *first, uint32_t handles);

/* How many queues are open, for tests. */
uint32_t scq_go_queues(void);

#endif
