-- Two clients and a lock; ranges and conditions give the solver something to simplify.
const clients: 2;
type client: 1 .. clients;
     place: enum { outside, waiting, inside };
var at: array [client] of place;
    turn: 0 .. clients;
    entries: 0 .. 7;

startstate begin
  for c: client do at[c] := outside; end;
  turn := 0;
  entries := 0;
end;

ruleset c: client do
  rule "wait" at[c] = outside ==> begin at[c] := waiting; end;
  rule "enter" at[c] = waiting & turn = 0 & (entries < 8 | entries > 9) ==> begin
    at[c] := inside;
    turn := c;
    entries := (entries + 1) % 8;
  end;
  rule "leave" at[c] = inside & turn = c & entries >= 0 ==> begin at[c] := outside; turn := 0; end;
end;

invariant "one inside" forall c: client do forall d: client do
  at[c] = inside & at[d] = inside -> c = d end end;
