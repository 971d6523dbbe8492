host same_text(text, text): bool;

// Checks the word of whoever logs in. A later login takes the place of a check that is still going on.
module Login(in name: text, in word: text, in login, in logout, out ok: bool, out state: text) {
  every (login.now) {
    emit state("checking");
    async (ok) call same_text(name.nowval, word.nowval) kill "drop check";
    if (ok.nowval) {
      emit state("open");
      await (logout.now);
      emit state("closed");
    } else {
      emit state("denied");
    }
  }
}
%% scenario
react
react name("ann") word("bob") login
react word("ann") login
work 2
react
react logout
