// What a relay publishes on channels of node:diagnostics_channel, for logs and traces. Nothing is made without a subscriber.
import diagnostics from "node:diagnostics_channel";

/**
 * Each channel by what happens, and what its subscribers get. Data of peers and passwords are on none of them.
 *
 * - `open` and `end` ({ relay, error }): a relay was opened, or has ended, with an error if it ended by itself.
 * - `lost` ({ relay, lost }): the server no longer renews a permission or a channel.
 * - `sendFailed` ({ relay, peer, error }): a `send` has failed, whether somebody waited for it or not.
 * - `sent` and `received` ({ server, data }): a STUN message to the server of this URI, or from it.
 */
export const CHANNELS = Object.freeze({
    open: diagnostics.channel("yarrowdoor:open"), end: diagnostics.channel("yarrowdoor:end"), lost: diagnostics.channel("yarrowdoor:lost"),
    sendFailed: diagnostics.channel("yarrowdoor:send-failed"), sent: diagnostics.channel("yarrowdoor:message-sent"),
    received: diagnostics.channel("yarrowdoor:message-received"),
});

/**
 * Publishes a message to or from a server, in bytes of its own.
 * @param {import("node:diagnostics_channel").Channel} channel
 * @param {import("./uri.js").TurnUri} uri
 * @param {Uint8Array} packet
 */
export function publishMessage(channel, uri, packet) {
    if (channel.hasSubscribers) {
        channel.publish({ server: uri.text, data: Buffer.from(packet) });
    }
}
