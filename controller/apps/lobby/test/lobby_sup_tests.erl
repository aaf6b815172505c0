-module(lobby_sup_tests).

-include_lib("eunit/include/eunit.hrl").

%% A killed supervisor's rooms may end a moment after it. If its successor started rooms before that, a room that is
%% about to end could count as running.
waits_for_what_ends_late_test_() ->
    {setup, fun() -> {ok, Pid} = lobby_registry:start_link(), Pid end, fun gen_server:stop/1, fun() ->
        Room = spawn(fun() -> receive stop -> ok end end),
        yes = lobby_registry:register_name({room, <<"100">>}, Room),
        Own = self(),
        _ = spawn(fun() ->
            {ok, Rooms} = lobby_sup:start_link(lobby_room_sup, {many, lobby_room}),
            Own ! {started, is_process_alive(Room)},
            unlink(Rooms),
            exit(Rooms, kill)
        end),
        ?assertEqual(nothing, receive Early -> Early after 50 -> nothing end),
        Room ! stop,
        ?assertEqual({started, false}, receive Started -> Started after 5000 -> nothing end)
    end}.
