%% The campaign of `pst` on the sample system `counter`, as a property of PropEr: commands first, then two processes at once, and an order of the calls that
%% explains all replies. `counter:main` takes how many testers work at the same time, the tests of all of them, how often each case is driven, and the size
%% of the largest prefix: with 33 a case has 16 commands on average, as those of `pst` have. It prints the tests in a second, without the start of Erlang.
-module(counter).
-behaviour(proper_statem).
-include_lib("proper/include/proper.hrl").
-export([main/1, inc/1, get/1, initial_state/0, command/1, precondition/2, next_state/3, postcondition/3]).

inc(Counter) -> atomics:add_get(Counter, 1, 1).
get(Counter) -> atomics:get(Counter, 1).

initial_state() -> 0.
command(_) -> oneof([{call, ?MODULE, inc, [{var, counter}]}, {call, ?MODULE, get, [{var, counter}]}]).
precondition(_, _) -> true.
next_state(Number, _, {call, _, inc, _}) -> Number + 1;
next_state(Number, _, _) -> Number.
postcondition(Number, {call, _, inc, _}, Reply) -> Reply =:= Number + 1;
postcondition(Number, _, Reply) -> Reply =:= Number.

passes(Counter, Commands) ->
    atomics:put(Counter, 1, 0),
    {_, _, Result} = run_parallel_commands(?MODULE, Commands, [{counter, Counter}]),
    Result =:= ok.

test(Tests, Repeats, Size) ->
    Counter = atomics:new(1, []),
    Property = ?FORALL(Commands, parallel_commands(?MODULE),
                       lists:all(fun (_) -> passes(Counter, Commands) end, lists:seq(1, Repeats))),
    true = proper:quickcheck(Property, [quiet, {numtests, Tests}, {max_size, Size}]).

main(Words) ->
    [Workers, Tests, Repeats, Size] = [list_to_integer(Word) || Word <- Words],
    Begin = erlang:monotonic_time(nanosecond),
    Testers = [spawn_monitor(fun () -> test(Tests div Workers, Repeats, Size) end) || _ <- lists:seq(1, Workers)],
    [receive {'DOWN', Reference, process, _, Reason} -> normal = Reason end || {_, Reference} <- Testers],
    Seconds = (erlang:monotonic_time(nanosecond) - Begin) / 1.0e9,
    io:format("~b~n", [round(Tests / Seconds)]),
    halt().
