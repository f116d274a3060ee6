// Tells whether bytes are a text that may be a description, or something else: then they are read as a job.

const JOB_HEAD = [1, 1, 0];
const SPACES = new Set([9, 10, 11, 12, 13]);
const LEAST_PRINTED = 32;
const DELETED = 127;

const startsWith = (bytes, head) => head.every((byte, k) => bytes[k] === byte);

const printed = (byte) => (byte >= LEAST_PRINTED && byte !== DELETED) || SPACES.has(byte);

// "job", "text", or "other text" for one in an encoding that is not read here.
export function textKind(bytes) {
  if (bytes.length === 0 || startsWith(bytes, JOB_HEAD)) return "job";
  if (startsWith(bytes, [0xff, 0xfe]) || startsWith(bytes, [0xfe, 0xff])) return "other text";
  if (!bytes.every(printed)) return "job";
  try {
    new TextDecoder("utf-8", { fatal: true }).decode(bytes, { stream: true });
    return "text";
  } catch {
    return "other text";
  }
}
