// A download in parts that stands still while a dialog is open, and that a cancel stops. Each part is emitted once the
// dialog is closed, one in each reaction.
host text_size(text): int;
module Download(in dialog, in cancel, out part: int, out saved) {
  abort (cancel.now) {
    suspend (dialog.now) {
      async (part) call text_size("picture") kill "stop" suspend "hold" resume "go on";
      emit saved;
    }
  }
}
%% scenario
react
more 1 512
react
react dialog
more 1 1024
more 1 1536
react dialog
react
react
# The body answers the size of the text, and that was the last part.
work 1
react
react
reset
react
react dialog
react cancel
