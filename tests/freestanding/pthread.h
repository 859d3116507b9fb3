/* What the test of concurrent calls needs of <pthread.h>, for the kit's compiler, which comes with no headers. */
#ifndef FREESTANDING_PTHREAD_H
#define FREESTANDING_PTHREAD_H

typedef unsigned long pthread_t;

int pthread_create(pthread_t *thread, const void *attributes, void *(*run)(void *), void *argument);
int pthread_join(pthread_t thread, void **result);

#endif
