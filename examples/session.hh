// A login: a check in the background that a newer login replaces, and a session that a logout or three ticks end.
host same_text(text, text): bool;
body minutes(n: int): int { n * 60 }
module Login(in user: text, in word: text, in login, in logout, in tick, out ok: bool, out left: int, out state: text) {
  every (login.now) {
    emit state("checking");
    async (ok) call same_text(user.nowval, word.nowval) kill "drop check";
    if (ok.nowval) {
      emit state("open");
      weakabort (logout.now) {
        abort count(3, tick.now) { async (left) call minutes(2) kill "stop clock"; halt; }
      }
      emit state("closed");
    } else { emit state("denied"); }
  }
}
%% scenario
react
react user("ann") word("ann") login
work 1
react
react tick
work 2
react
react tick
react tick
react login
react word("zed") login
work 4
react
