// Asks for a number from 1 to 9, and asks again until one comes. What it emits with `ask` is the number of the try.
module Form(in answer: int, out ask: int, out taken: int) {
  trap filled {
    loop {
      emit ask(ask.preval + 1);
      await (answer.now);
      if (answer.nowval >= 1 && answer.nowval <= 9) {
        emit taken(answer.nowval);
        break filled;
      }
    }
  }
}
%% scenario
react
react answer(0)
react
react answer(12)
react answer(7)
