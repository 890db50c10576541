/*
 * Packets: frames written into them and read out of them, and packets that wait for a slot.
 */
#include <string.h>

#include "greenhouse.h"

/* A packet of bytes that are one frame, or several of one length in a row. */
void packet_set(struct packet *packet, uint16_t to, const uint8_t *bytes, size_t length, size_t frame_length)
{
    packet->to = to;
    packet->length = (uint8_t)length;
    packet->frame_length = (uint8_t)frame_length;
    memcpy(packet->bytes, bytes, length);
}

/* A packet of the frame with these fields, and this part behind them. */
void packet_write(struct site *site, struct packet *packet, uint16_t to, const uint32_t *fields, size_t count,
                  const uint8_t *part, size_t part_length)
{
    uint32_t written = 0;
    uint8_t status = braidlark_write(fields, count, part, part_length, packet->bytes, sizeof packet->bytes, &written);
    check_status(site, "braidlark_write", status, 0);
    packet->to = to;
    packet->length = (uint8_t)written;
    packet->frame_length = (uint8_t)written;
}

/* A frame of this site is always readable: loss takes whole packets. */
void frame_read(struct site *site, const uint8_t *bytes, size_t length, struct frame *frame)
{
    uint8_t status =
        braidlark_read(bytes, length, frame->fields, BRAIDLARK_MOST_FIELDS, &frame->place, &frame->part_length);
    check_status(site, "braidlark_read", status, 0);
}

/* A full queue loses the newest, as a radio's buffer does. */
void queue_put(struct queue *queue, const struct packet *packet)
{
    if (queue->count < QUEUE_LENGTH) {
        queue->waiting[queue->count++] = *packet;
    }
}

/* Takes the first packet, if it fits into the room that is left. */
bool queue_take(struct queue *queue, size_t room, struct packet *packet)
{
    if (queue->count == 0 || queue->waiting[0].length > room) {
        return false;
    }
    *packet = queue->waiting[0];
    queue->count--;
    memmove(&queue->waiting[0], &queue->waiting[1], (size_t)queue->count * sizeof queue->waiting[0]);
    return true;
}
