// A session that is closed after three ticks without a key.
module Session(in key, in tick, out open, out closed) {
  trap idle {
    fork {
      sustain open;
    } par {
      do {
        await count(3, tick.now);
        break idle;
      } every (key.now);
    }
  }
  emit closed;
}
%% scenario
react
react tick
react tick
react key
react tick
react tick
react tick
react
