// Runs the program clampcheck itself on the bytes of a job, and gives the text that it prints.
//
// The program asks its surroundings to read and to write, and by which number that has failed. Here it reads the bytes of the job and
// writes into a list. Places and lengths have 64 bits, as on x86-64, so they come as BigInt.

const ENTRY = "clampcheck::main+start";
const INPUT = 0;
const NOTHING = -1n;
const BAD_FILE = 9;

// What the program is handed beside its own code, and what it is asked with.
export function surroundings() {
  const kept = { memory: null, input: new Uint8Array(0), parts: [] };
  const imports = {
    env: {
      read(file, at, most) {
        if (file !== INPUT) return NOTHING;
        const part = kept.input.subarray(0, Number(most));
        new Uint8Array(kept.memory.buffer).set(part, Number(at));
        kept.input = kept.input.subarray(part.length);
        return BigInt(part.length);
      },
      write(file, at, length) {
        kept.parts.push(new Uint8Array(kept.memory.buffer).slice(Number(at), Number(at + length)));
        return length;
      },
      rattle_errno: () => BAD_FILE,
    },
  };
  return { kept, imports };
}

// The program of an instance that was made with these surroundings: from bytes to the text that it prints, as bytes.
export function programOf(instance, { kept }) {
  kept.memory = instance.exports.memory;
  return (bytes) => {
    kept.input = bytes;
    kept.parts = [];
    instance.exports[ENTRY]();
    const whole = new Uint8Array(kept.parts.reduce((sum, part) => sum + part.length, 0));
    let at = 0;
    for (const part of kept.parts) {
      whole.set(part, at);
      at += part.length;
    }
    return whole;
  };
}
