#include "handle.h"

static uint32_t queues;

/* Behind the handles stands one more port, which keeps the buffers that are more than the room. */
uint32_t scq_go_open(uint32_t room, uint32_t handles, scq_go_handle **out) {
    scq_go_handle *const first = calloc(handles + 1, sizeof *first);
    scq_port *const ports = calloc(handles + 1, sizeof *ports);
    uint32_t order = 1, answer = SCQ_NO_MEMORY, k;
    while ((UINT32_C(1) << order) < room) order++;
    if (first != NULL && ports != NULL)
        answer = scq_open(order, 1, sizeof(uint32_t), UINT32_C(1) << order, SCQ_MAX_LIMIT, ports,
                          handles + 1);
    if (answer == SCQ_OK) {
        scq_held held;
        for (k = 0; k <= handles; k++) first[k].port = ports[k];
        for (k = room; k < UINT32_C(1) << order; k++)
            if (scq_lend(&first[handles].port, &held) != SCQ_OK) abort();
        __atomic_add_fetch(&queues, 1, __ATOMIC_SEQ_CST);
    } else {
        free(first);
    }
    free(ports);
    *out = first;
    return answer;
}

static uint32_t send(scq_go_handle *handle, const scq_held *held) {
    uint32_t answer;
    memcpy(held->at, &handle->slots_put[handle->put], sizeof(uint32_t));
    answer = scq_send(&handle->port, held->index, 0, NULL);
    if (answer == SCQ_OK) handle->put++;
    return answer;
}

static void give_back(scq_go_handle *handle, const scq_held *held) {
    if (scq_give_back(&handle->port, held->index) == SCQ_OK) handle->freed++;
}

void scq_go_step(uintptr_t number) {
    scq_go_handle *const handle = (scq_go_handle *)number;
    scq_held held;
    handle->put = handle->got = handle->freed = 0;
    handle->put_answer = handle->get_answer = SCQ_OK;
    while (handle->put < handle->to_put) {
        handle->put_answer = scq_lend(&handle->port, &held);
        if (handle->put_answer != SCQ_OK) break;
        handle->put_answer = send(handle, &held);
        if (handle->put_answer == SCQ_OK) continue;
        give_back(handle, &held);
        break;
    }
    while (handle->got < handle->to_get) {
        handle->get_answer = scq_take(&handle->port, 0, &held);
        if (handle->get_answer != SCQ_OK) break;
        memcpy(&handle->slots_got[handle->got++], held.at, sizeof(uint32_t));
        if (handle->put_answer == SCQ_FULL) {
            const uint32_t answer = send(handle, &held);
            if (answer == SCQ_OK && handle->put == handle->to_put) handle->put_answer = SCQ_OK;
            if (answer == SCQ_OK) continue;
            handle->put_answer = answer;
        }
        give_back(handle, &held);
    }
}

void scq_go_retire(uintptr_t number) {
    scq_go_handle *const handle = (scq_go_handle *)number;
    scq_retire(&handle->port);
}

void scq_go_close(scq_go_handle *first, uint32_t handles) {
    uint32_t k;
    for (k = 0; k <= handles; k++) scq_close(&first[k].port);
    free(first);
    __atomic_sub_fetch(&queues, 1, __ATOMIC_SEQ_CST);
}

uint32_t scq_go_queues(void) { return __atomic_load_n(&queues, __ATOMIC_SEQ_CST); }
