// Two alarms and a stop: the strong preemption cuts an alarm off at once, the weak one lets it ring for the last time.
module Alarm(in stop, out strong, out weak, out quiet) {
  fork {
    abort (stop.now) { sustain strong; }
  } par {
    weakabort (stop.now) { sustain weak; }
  }
  emit quiet;
}
%% scenario
react
react
react stop
