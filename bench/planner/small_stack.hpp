// Work on a stack of 8 MiB, and how much of it the work takes.
#pragma once
#include <pthread.h>
#include <sys/mman.h>
#include <algorithm>
#include <cstdint>
#include <cstdlib>
#include <cstring>

constexpr size_t stack_size = 8 << 20;

// Runs the work in a thread with such a stack, above a page that nobody may touch; the bytes of the stack down to the lowest that was written.
template <class Work> size_t stack_taken(Work work) {
    constexpr size_t page = 4096;
    constexpr int mark = 0xA5;
    auto *low = static_cast<uint8_t *>(mmap(nullptr, page + stack_size, PROT_READ | PROT_WRITE, MAP_PRIVATE | MAP_ANONYMOUS, -1, 0));
    if (low == MAP_FAILED || mprotect(low, page, PROT_NONE) != 0) std::abort();
    uint8_t *stack = low + page, *top = stack + stack_size;
    std::memset(stack, mark, stack_size);
    pthread_attr_t attributes;
    pthread_t thread;
    pthread_attr_init(&attributes);
    auto run = [](void *given) -> void * {
        (*static_cast<Work *>(given))();
        return nullptr;
    };
    if (pthread_attr_setstack(&attributes, stack, stack_size) != 0 || pthread_create(&thread, &attributes, run, &work) != 0) std::abort();
    pthread_join(thread, nullptr);
    pthread_attr_destroy(&attributes);
    const size_t taken = top - std::find_if(stack, top, [](uint8_t byte) { return byte != mark; });
    munmap(low, page + stack_size);
    return taken;
}
