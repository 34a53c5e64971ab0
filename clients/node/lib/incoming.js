"use strict";

const { HEADER_SIZE } = require("../names.js");
const { replyLength, testAsked, testReply } = require("./frames.js");

/** The bytes that came over a connection or a pipe, of which replies are taken. */
class Incoming {
  #said = [];
  #need = 0; // bytes of the reply whose header was tested
  size = 0;

  add(data) {
    this.#said.push(data);
    this.size += data.length;
  }

  /** All that came, in one piece. */
  whole() {
    if (this.#said.length !== 1) this.#said = [Buffer.concat(this.#said, this.size)];
    return this.#said[0];
  }

  /**
   * The reply to a request, or undefined if it is not whole yet. Throws BadReply if what came is
   * no reply to it.
   */
  replyTo(frame) {
    if (this.#need === 0) {
      if (this.size < HEADER_SIZE) return undefined;
      const header = this.whole().subarray(0, HEADER_SIZE);
      testReply(header);
      testAsked(frame, header);
      this.#need = replyLength(header);
    }
    if (this.size < this.#need) return undefined;
    const data = this.whole();
    const reply = data.subarray(0, this.#need);
    this.#said = data.length > this.#need ? [data.subarray(this.#need)] : [];
    this.size -= this.#need;
    this.#need = 0;
    return reply;
  }
}

module.exports = { Incoming };
