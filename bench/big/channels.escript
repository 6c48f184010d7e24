#!/usr/bin/env escript
%% The work of the generated file by hand, as channels.rs has it, over processes and their mailboxes. A
%% process that was told of a new holder sends to it from then on, so the second of a group passes on
%% what came before.
%%! +sbt u
-mode(compile).

main([Text]) ->
    Turns = list_to_integer(Text),
    Main = self(),
    lists:foreach(fun(Number) -> group(Main, Turns, Number) end, lists:seq(1, 5)),
    wait(15),
    io:format("done~n").

group(Main, Turns, Number) ->
    Third = spawn(fun() -> receive {ends, First} -> First ! {sum, sum(0)}, Main ! ended end end),
    Second = spawn(fun() -> receive {first, First} -> Third ! {ends, First}, pass(Third), Main ! ended end end),
    spawn(fun() ->
        Second ! {first, self()},
        send(Second, Turns, Number),
        receive {sum, Sum} -> Sum = Turns * Number end,
        Main ! ended
    end).

send(To, 0, _) -> To ! {more, false};
send(To, Turns, Number) -> To ! {more, true}, To ! {int, Number}, send(To, Turns - 1, Number).

pass(To) ->
    receive
        {more, false} -> To ! {more, false};
        Other -> To ! Other, pass(To)
    end.

sum(Sum) ->
    receive
        {more, true} -> receive {int, Number} -> sum(Sum + Number) end;
        {more, false} -> Sum
    end.

wait(0) -> ok;
wait(N) -> receive ended -> wait(N - 1) end.
