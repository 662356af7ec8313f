/* The library's memory (memory.h): a sender's lies where its layer says, and all other is malloc's.
 * Trusted: that the library gives a sender's memory back as it closes the sender, under the same
 * layer, and doesn't resize it. If it asks for more than once, or for more bytes, that is malloc's,
 * too. */
#include "memory.h"
#include <stdlib.h>

__thread struct msg_room msgroom;

void *msgroom_malloc(size_t size)
{
    if (!msgroom.at || msgroom.is_taken || size > MSG_ROOM_SIZE) return malloc(size);
    msgroom.is_taken = true;
    return msgroom.at;
}

void msgroom_free(void *at)
{
    if (!at || at != msgroom.at) free(at);
}
