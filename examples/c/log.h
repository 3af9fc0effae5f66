// A log without output: each call is one store to a word that has no other use. `trace --word logged`
// shows what was logged, by which hart and at which step, and the log itself is as short as a store.

static volatile unsigned logged;

static inline void log_word(unsigned value) { logged = value; }
