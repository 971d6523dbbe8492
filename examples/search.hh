// A search at each key, where a newer key replaces the search before. Its late answer is dropped.
body found(word: text): text { "what is like " + word }
module Search(in key: text, out shown: text) {
  every (key.now) {
    async (shown) call found(key.nowval) kill "forget it";
  }
}
%% scenario
react
react key("h")
react key("hi")
notify 1 "ham"
work 2
react
react key("hip")
notify 3 7
notify 9 "nobody asked"
react
work 3
react
