#!/usr/bin/env escript
%% The workloads ring and queue with Erlang's processes and messages. Prints what the workload tells at its end, and the microseconds that
%% it took without the start of the machine.
%%
%%   escript bench/switches.erl WORKLOAD TURNS
-mode(compile).

main([Name, Turns]) ->
    {Microseconds, Told} = timer:tc(fun() -> workload(Name, list_to_integer(Turns)) end),
    io:format("~w ~w~n", [Told, Microseconds]).

%% 64 processes pass a token round, each to the next.
workload("ring", Turns) ->
    Last = self(),
    First = lists:foldl(fun(_, Next) -> spawn(fun() -> node(Next, Turns) end) end, Last, lists:seq(1, 63)),
    First ! token,
    node(First, Turns),
    64 * Turns;
%% A process sends elements, and another sums their numbers as an INT of 32 bits.
workload("queue", Turns) ->
    Reader = self(),
    spawn(fun() -> [Reader ! {I, <<"element">>} || I <- lists:seq(1, Turns)] end),
    Sum = lists:foldl(fun(_, Sum) -> receive {I, _} -> Sum + I end end, 0, lists:seq(1, Turns)),
    (Sum + 16#80000000) rem 16#100000000 - 16#80000000.

node(_, 0) -> ok;
node(Next, Turns) ->
    receive token -> Next ! token end,
    node(Next, Turns - 1).
