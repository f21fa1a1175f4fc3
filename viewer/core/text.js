// Bytes as text.

/** @param {Uint8Array} bytes */
export const hexOf = bytes => Array.from(bytes, byte => byte.toString(16).padStart(2, '0')).join('');

/**
 * The text, or null if the bytes aren't UTF-8.
 * @param {Uint8Array} bytes
 */
export function utf8Of(bytes) {
  try { return new TextDecoder('utf-8', { fatal: true, ignoreBOM: true }).decode(bytes); } catch { return null; }
}

/**
 * Printable ASCII as it is, and a sign for each other byte.
 * @param {Uint8Array} bytes @param {string} sign
 */
export const printable = (bytes, sign) => Array.from(bytes, byte => byte > 31 && byte < 127 ? String.fromCharCode(byte)
  : sign).join('');
