/* first.c: two classes, three sends, and a method that is replaced while another thread sends */
#include <msg_runtime.h>
#include <stdio.h>
#include <stdlib.h>

enum { SHAPE, SQUARE };                   /* my classes, from 0 */
enum { AREA = 1, SIDES, COLOUR };         /* my selectors, from 1 */
typedef int (*method)(int side);
static int forward(int side) { return (void)side, -1; } /* where nobody has the method */
static int four(int side) { return (void)side, 4; }
static int area(int side) { return side * side; }
static const method methods[] = {forward, four, area};  /* my implementations, from 1 */

static msg_runtime runtime = MSG_RUNTIME_INIT;
/* held to change or to ask; msg_find takes it after a miss */
static pthread_mutex_t lock = PTHREAD_MUTEX_INITIALIZER;
/* one for each thread; 512 KiB, so off the stack; all zero bytes is a closed handle */
static _Alignas(64) msg_sender mine, other;

static void must(uint32_t fault) { if (fault) exit(1); }

static int send(msg_sender *sender, uint32_t selector) /* to a square of side 3 */
{
    uint32_t imp; /* reflects every change that has returned */
    must(msg_find(&runtime, &lock, sender, SQUARE, false, selector, &imp));
    return methods[imp](3);
}

static void *work(void *sender) { while (send(sender, AREA) == 9) {} return NULL; }

int main(void)
{
    pthread_t thread;
    must(msg_open(&runtime, NULL));
    must(msg_make_root_class(&runtime, SHAPE));
    must(msg_make_class(&runtime, SQUARE, SHAPE));
    must(msg_add(&runtime, SHAPE, false, SIDES, 1));
    must(msg_add(&runtime, SQUARE, false, AREA, 2));
    must(msg_sender_open(&runtime, &mine));
    must(msg_sender_open(&runtime, &other));
    printf("area %d, sides %d, ", send(&mine, AREA), send(&mine, SIDES));
    printf("colour %d\n", send(&mine, COLOUR));
    pthread_create(&thread, NULL, work, &other);
    pthread_mutex_lock(&lock);
    must(msg_replace(&runtime, SQUARE, false, AREA, 1));
    pthread_mutex_unlock(&lock);
    pthread_join(thread, NULL);           /* ends once it has seen the new method */
    printf("area %d\n", send(&mine, AREA));
    return 0;
}
