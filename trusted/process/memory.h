/* The memory that the library takes for a sender, where a layer over it opens or closes the sender:
 * it lies where the layer says. So a thread's first find wants nothing of malloc's, which a handler
 * of a signal may have interrupted. Trusted: as memory.c. */
#ifndef MSG_MEMORY_H
#define MSG_MEMORY_H

#include <stdbool.h>
#include <stddef.h>

enum { MSG_ROOM_SIZE = 64 };

/* While the thread opens or closes a sender: where its memory lies, and whether that was taken. */
struct msg_room {
    void *at;
    bool is_taken;
};
extern __thread struct msg_room msgroom;

/* What the library calls in place of malloc and free. */
void *msgroom_malloc(size_t size);
void msgroom_free(void *at);

#endif
