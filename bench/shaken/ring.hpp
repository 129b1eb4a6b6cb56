// A ring of numbered cells, after Dmitry Vyukov's: a cell's number is its ticket where it is free, and one more where it is full. Where a
// cell isn't ready the tail, or the head, says whether the ring is empty, or full, or whether another thread is at work in it.
// Wrong with one of these:
//
//     TOLD_EARLY    a cell is told full before its value is written
//     FREED_EARLY   a cell is told free before its value is read
//     WRAPS=8, 16   numbers have so few bits
#include "shake.h"
#include <thread>

#ifndef WRAPS
#define WRAPS 64
#endif
template <int bits> struct NumberOf;
template <> struct NumberOf<8> { using Type = uint8_t; };
template <> struct NumberOf<16> { using Type = uint16_t; };
template <> struct NumberOf<64> { using Type = uint64_t; };
using Number = NumberOf<WRAPS>::Type;

// Whether a number is behind another, or how far ahead.
inline int64_t ahead(Number one, Number other) { return std::make_signed_t<Number>(Number(one - other)); }

struct Queue {
    struct Cell {
        std::atomic<Number> number;
        std::atomic<uint64_t> value;
    };
    std::vector<Cell> cells;
    const int64_t size;
    alignas(128) std::atomic<Number> tail{0};
    alignas(128) std::atomic<Number> head{0};

    Queue(uint32_t order, size_t) : cells(size_t(1) << order), size(int64_t(1) << order) {
        for (size_t i = 0; i < cells.size(); i++) cells[i].number = Number(i);
    }
    Cell &cell(Number at) { return cells[at % cells.size()]; }
};

struct Port {
    Queue &queue;

    Port(Queue &queue, size_t) : queue(queue) {}
    bool put(uint64_t value) {
        for (;;) {
            Number at = queue.tail.load();
            SCQ_SHAKE();
            Queue::Cell &cell = queue.cell(at);
            const int64_t is = ahead(cell.number.load(), at);
            SCQ_SHAKE();
            if (is < 0) {
                if (ahead(at, queue.head.load()) >= queue.size) return false;
                std::this_thread::yield();
            }
            if (is != 0 || !queue.tail.compare_exchange_strong(at, Number(at + 1))) continue;
            SCQ_SHAKE();
#ifdef TOLD_EARLY
            cell.number.store(Number(at + 1));
            SCQ_SHAKE();
            cell.value.store(value, std::memory_order_relaxed);
#else
            cell.value.store(value, std::memory_order_relaxed);
            SCQ_SHAKE();
            cell.number.store(Number(at + 1));
#endif
            return true;
        }
    }
    bool get(uint64_t &value) {
        for (;;) {
            Number at = queue.head.load();
            SCQ_SHAKE();
            Queue::Cell &cell = queue.cell(at);
            const int64_t is = ahead(cell.number.load(), Number(at + 1));
            SCQ_SHAKE();
            if (is < 0) {
                if (ahead(queue.tail.load(), at) <= 0) return false;
                std::this_thread::yield();
            }
            if (is != 0 || !queue.head.compare_exchange_strong(at, Number(at + 1))) continue;
            SCQ_SHAKE();
#ifdef FREED_EARLY
            cell.number.store(Number(at + queue.size));
            SCQ_SHAKE();
            value = cell.value.load(std::memory_order_relaxed);
#else
            value = cell.value.load(std::memory_order_relaxed);
            SCQ_SHAKE();
            cell.number.store(Number(at + queue.size));
#endif
            return true;
        }
    }
    void flush() {}
};
