// Bytes as digits in hex, and as bits.

export function bytesOfHex(text: string): Uint8Array {
    return Uint8Array.from(text.match(/../g) ?? [], digits => parseInt(digits, 16));
}

export function hexOf(bytes: Uint8Array): string {
    return Array.from(bytes, byte => byte.toString(16).padStart(2, "0")).join("");
}

export function bitsOf(digits: string): string {
    return Array.from(bytesOfHex(digits), byte => byte.toString(2).padStart(8, "0")).join("");
}

/** The digits of some bits; zeros fill the last byte. */
export function digitsOf(bits: string): string {
    const whole = bits + "0".repeat((8 - bits.length % 8) % 8);
    return hexOf(Uint8Array.from(whole.match(/.{8}/g) ?? [], byte => parseInt(byte, 2))).toUpperCase();
}
