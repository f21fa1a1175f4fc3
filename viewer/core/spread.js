// How a list of times is spread.

const BARS = 40, LEAST = 1e-6;

/**
 * Null for an empty list; else quantiles, and bars over the logarithm of the time.
 * @param {number[]} list
 */
export function spreadOf(list) {
  if (!list.length) return null;
  const sorted = Float64Array.from(list).sort(), bars = new Uint32Array(BARS);
  const at = (/** @type {number} */ part) => sorted[Math.min(sorted.length - 1, Math.floor(part * sorted.length))];
  const low = Math.log10(Math.max(sorted[0], LEAST)), high = Math.max(Math.log10(Math.max(at(0.999), 10 * LEAST)), low + 0.1);
  for (const one of sorted) {
    const part = (Math.log10(Math.max(one, LEAST)) - low) / (high - low);
    bars[Math.min(BARS - 1, Math.max(0, Math.floor(part * BARS)))]++;
  }
  return { count: sorted.length, least: sorted[0], half: at(0.5), nine: at(0.9), most: sorted[sorted.length - 1], bars,
    low: 10 ** low, high: 10 ** high };
}
