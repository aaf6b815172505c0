%% Functions that the suites share: one ends a case, and the others wait for conditions or check them.
-module(lobby_case).

-export([stop/0, until/1, until/2, stays/1]).

%% Milliseconds after which a wait fails, even on a busy machine.
-define(LIMIT, 60000).

%% Stops the controller and all gateways.
stop() ->
    _ = application:stop(lobby),
    _ = application:stop(mnesia),
    ok = application:unload(lobby),
    _ = gateway:kill_all(),
    ok.

%% Waits until a condition holds. Returns the milliseconds that this took.
until(Holds) -> until(Holds, ?LIMIT).

%% Waits for at most this many milliseconds.
until(Holds, Limit) -> until(Holds, erlang:monotonic_time(millisecond), Limit).

until(Holds, Start, Limit) ->
    Passed = erlang:monotonic_time(millisecond) - Start,
    case Holds() of
        true -> Passed;
        false when Passed < Limit -> timer:sleep(5), until(Holds, Start, Limit);
        false -> error({not_within_ms, Limit})
    end.

%% Checks repeatedly, for half a second, that a condition still holds.
stays(Holds) ->
    _ = [Holds() orelse error(no_longer) || _ <- lists:seq(1, 100), timer:sleep(5) =:= ok],
    ok.
