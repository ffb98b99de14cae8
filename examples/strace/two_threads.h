// A daemon of two threads: one drops, and then the other tries to come back. It is included after daemon.h.
#include <pthread.h>

static void *other(void *meeting)
{
    must(pthread_barrier_wait(meeting) <= 0, "pthread_barrier_wait");
    must(pthread_barrier_wait(meeting) <= 0, "pthread_barrier_wait");
    try_to_come_back();
    wait_for_ever();
    return NULL;
}

// Both threads run before `drop` is called in the first.
static void drop_in_first(void drop(void))
{
    pthread_barrier_t meeting;
    pthread_t thread;

    must(pthread_barrier_init(&meeting, NULL, 2) == 0, "pthread_barrier_init");
    must(pthread_create(&thread, NULL, other, &meeting) == 0, "pthread_create");
    must(pthread_barrier_wait(&meeting) <= 0, "pthread_barrier_wait");
    drop();
    must(pthread_barrier_wait(&meeting) <= 0, "pthread_barrier_wait");
    wait_for_ever();
}
