// The trace: rows, packets and operations' names.

/** The rows of a trace in columns, the packets that they send and hear, and the names that they are about. */
class Trace {
  constructor({ about, columns }) {
    this.names = about.names;
    this.told = about.told;
    this.length = columns.rowTime.length;
    this.number = columns.rowNumber;
    this.time = columns.rowTime;
    this.member = Int32Array.from(columns.rowMember);
    this.cause = Uint8Array.from(columns.rowCause);
    this.result = Uint8Array.from(columns.rowResult);
    this.lost = columns.rowLost;
    this._packets(columns);
    this._references(columns);
    this._lostNames(columns);
    this._hearers();
  }

  _packets(columns) {
    this.packets = Array.from(columns.packetTime, (time, id) => ({
      id,
      sender: columns.packetSender[id],
      count: columns.packetCount[id],
      kind: columns.packetKind[id],
      name: columns.packetName[id] - 1,
      time,
      row: columns.packetRow[id] - 1,
      scope: columns.packetScope[id] || Infinity,
      requester: columns.packetRequester[id] - 1,
      width: columns.packetWidth[id] || Infinity,
    }));
    this.sent = new Int32Array(this.length).fill(-1);
    for (const packet of this.packets) if (packet.row >= 0) this.sent[packet.row] = packet.id;
  }

  /** For each row the packet that arrives, or -1, and the name that it is about, or -1. */
  _references(columns) {
    this.packet = new Int32Array(this.length).fill(-1);
    this.name = new Int32Array(this.length).fill(-1);
    let packets = 0;
    let names = 0;
    for (let row = 0; row < this.length; row++) {
      if (isArrival(this.cause[row])) {
        this.packet[row] = columns.rowPacket[packets++];
        this.name[row] = this.packets[this.packet[row]].name;
      } else if (this._hasName(row)) {
        this.name[row] = columns.rowName[names++];
      }
    }
  }

  _hasName(row) {
    const cause = this.cause[row];
    return cause === CAUSE.ask || cause === CAUSE.answer || (cause === CAUSE.draw && this.result[row] === RESULT.sent);
  }

  _lostNames(columns) {
    this.lostNames = Int32Array.from(columns.lostName);
    this.lostFrom = new Int32Array(this.length + 1);
    let losing = 0;
    for (let row = 0; row < this.length; row++) {
      const count = this.lost[row] > 0 ? columns.lostCount[losing++] : 0;
      this.lostFrom[row + 1] = this.lostFrom[row] + count;
    }
  }

  /** For each packet the rows in which it is heard. */
  _hearers() {
    const first = new Int32Array(this.packets.length + 1);
    for (let row = 0; row < this.length; row++) if (this.packet[row] >= 0) first[this.packet[row] + 1]++;
    for (let id = 0; id < this.packets.length; id++) first[id + 1] += first[id];
    const next = first.slice();
    this.heardFrom = first;
    this.heard = new Int32Array(first[this.packets.length]);
    for (let row = 0; row < this.length; row++) if (this.packet[row] >= 0) this.heard[next[this.packet[row]]++] = row;
  }

  /** The names that a member lost in a row. */
  lostIn(row) {
    return this.lostNames.subarray(this.lostFrom[row], this.lostFrom[row + 1]);
  }

  /** The rows in which a packet is heard. */
  hearersOf(packet) {
    return this.heard.subarray(this.heardFrom[packet.id], this.heardFrom[packet.id + 1]);
  }

  /** Whether the page tells of a name: of all, or where only some are shown, of these. */
  tells(name) {
    return name >= 0 && (this.told === null || this.told[name] === 1);
  }

  /** A name as it stands in a trace. */
  nameText(name) {
    return name < 0 ? "another operation" : this.names[name].join("/");
  }

  /** A packet as it stands in a trace. */
  packetText(packet) {
    return `${packet.sender}:${packet.count}`;
  }

  /** The fields of a row as they stand in the trace. */
  fields(row) {
    const sent = this.sent[row] >= 0 ? this.packetText(this.packets[this.sent[row]]) : "-";
    return [this.time[row], this.member[row], CAUSES[this.cause[row]], this._reference(row), RESULTS[this.result[row]],
      this.lost[row], sent];
  }

  _reference(row) {
    if (this.packet[row] >= 0) return this.packetText(this.packets[this.packet[row]]);
    return this._hasName(row) ? this.nameText(this.name[row]) : "-";
  }

  /** The number of the first row after a tick, which is that of rows up to the tick. */
  rowsUpTo(tick) {
    return d3.bisectRight(this.time, tick);
  }
}
