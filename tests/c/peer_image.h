/* The peer's state as an image, and back. */
#ifndef PEER_IMAGE_H
#define PEER_IMAGE_H

#include "peer.h"

#include <ghixramel.h>
#include <libc.h>

static inline struct ghixramel_image image_of_peer(const struct peer *peer)
{
    struct ghixramel_image image = {
        .pins = {peer->level, peer->reference, peer->held, peer->edge},
        .pointer = peer->pointer,
        .bus = peer->bus,
        .choice = peer->choice,
        .status = peer->status,
        .line = peer->line,
        .mode = peer->mode,
        .number = peer->number,
        .place = peer->place,
    };
    memcpy(image.registers, peer->registers, sizeof image.registers);
    return image;
}

static inline struct peer peer_of_image(const struct ghixramel_image *image)
{
    struct peer peer = {
        .level = image->pins[0],
        .reference = image->pins[1],
        .held = image->pins[2],
        .edge = image->pins[3],
        .status = image->status,
        .number = image->number,
        .pointer = (uint8_t)image->pointer,
        .bus = (uint8_t)image->bus,
        .choice = (uint8_t)image->choice,
        .line = (uint8_t)image->line,
        .mode = (uint8_t)image->mode,
        .place = (uint8_t)image->place,
    };
    memcpy(peer.registers, image->registers, sizeof peer.registers);
    return peer;
}

#endif
