/** Lets the messages be handled that have come, and goes on then. */

const channel = new MessageChannel();
const waiting: (() => void)[] = [];
channel.port1.onmessage = () => waiting.shift()?.();

export function pause(): Promise<void> {
    return new Promise((done) => {
        waiting.push(done);
        channel.port2.postMessage(null);
    });
}
