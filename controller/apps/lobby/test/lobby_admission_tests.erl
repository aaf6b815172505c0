-module(lobby_admission_tests).

-include_lib("eunit/include/eunit.hrl").

-define(A, {192, 0, 2, 1}).
-define(B, {192, 0, 2, 2}).
-define(PROXY, {192, 0, 2, 3}).

new(Limits) ->
    lobby_admission:new(maps:merge(#{callers => [], proxies => [{?PROXY, 32}], max_calls => 100, max_calls_from => 3, max_rooms_from => 2,
                                     messages_from => 10, new_calls_from => 5}, Limits)).

%% Sends `Count' messages at the same time. Returns how many of them are read.
read(Count, Address, Now, Admission) ->
    lists:foldl(fun(_, {N, A}) ->
        {Is, A1} = lobby_admission:message(Address, Now, A),
        {N + case Is of true -> 1; false -> 0 end, A1}
    end, {0, Admission}, lists:seq(1, Count)).

messages_test() ->
    {20, A1} = read(50, ?A, 0, new(#{})),
    {20, A2} = read(50, ?B, 0, A1),
    {50, A3} = read(50, ?PROXY, 0, A2),
    {0, A4} = read(50, ?A, 99, A3),
    {1, A5} = read(50, ?A, 100, A4),
    {10, A6} = read(50, ?A, 1100, A5),
    {20, _} = read(50, ?A, 100000, A6),
    %% Erlang's monotonic time is negative, so rates must not depend on its sign.
    {20, _} = read(50, ?A, -576460750000, new(#{})).

strangers_test() ->
    Admission = new(#{callers => [{?A, 32}]}),
    [?assertMatch({Address, {Is, _}}, {Address, lobby_admission:message(Address, 0, Admission)}) || {Address, Is} <- [{?A, true}, {?B, false}, {?PROXY, true}]].

%% Forged addresses don't exhaust the memory, and a known address keeps its bucket.
many_addresses_test() ->
    {_, Known} = lobby_buckets:take(known, 10, 0, lobby_buckets:new()),
    Full = lists:foldl(fun(N, B) -> element(2, lobby_buckets:take(N, 10, 0, B)) end, Known, lists:seq(1, 30000)),
    ?assert(erts_debug:flat_size(Full) < 200000),
    ?assertMatch({true, _}, lobby_buckets:take(known, 10, 0, Full)),
    ?assertMatch({false, _}, lobby_buckets:take(new, 10, 1, Full)),
    ?assertMatch({true, _}, lobby_buckets:take(new, 10, 1001, Full)),
    {true, Swept} = lobby_buckets:take(new, 10, 1001, Full),
    ?assert(erts_debug:flat_size(Swept) < 1000).

call(Address, Room, IsNew, Admission) ->
    lobby_admission:call(Address, {Room, IsNew}, 0, Admission).

entered(Calls, Admission) ->
    lists:foldl(fun({Address, Room}, {Pids, A}) ->
        Pid = spawn(fun() -> ok end),
        {[Pid | Pids], lobby_admission:entered(Pid, Address, Room, A)}
    end, {[], Admission}, Calls).

%% Too many calls from one address shut out only that address.
calls_test() ->
    {[Pid | _], A} = entered([{?A, <<"1">>}, {?A, <<"1">>}, {?A, <<"1">>}], new(#{})),
    ?assertMatch({too_many, _}, call(?A, <<"1">>, false, A)),
    ?assertMatch({ok, _}, call(?B, <<"1">>, false, A)),
    ?assertMatch({ok, _}, call(?A, <<"1">>, false, lobby_admission:left(Pid, A))),
    %% A call is counted once, and forgotten once.
    Same = lobby_admission:left(Pid, lobby_admission:left(Pid, lobby_admission:entered(Pid, ?A, <<"1">>, A))),
    ?assertEqual(lobby_admission:left(Pid, A), Same),
    {Pids, Many} = entered([{?PROXY, <<"1">>} || _ <- lists:seq(1, 100)], new(#{})),
    ?assertMatch({full, _}, call(?B, <<"1">>, false, Many)),
    ?assertEqual(new(#{}), lists:foldl(fun lobby_admission:left/2, Many, Pids)).

rooms_test() ->
    {_, A} = entered([{?A, <<"1">>}, {?A, <<"2">>}], new(#{})),
    ?assertMatch({too_many, _}, call(?A, <<"3">>, true, A)),
    ?assertMatch({ok, _}, call(?A, <<"3">>, false, A)),
    ?assertMatch({ok, _}, call(?A, <<"2">>, true, A)),
    ?assertMatch({ok, _}, call(?B, <<"3">>, true, A)),
    {_, P} = entered([{?PROXY, integer_to_binary(N)} || N <- lists:seq(1, 10)], new(#{})),
    ?assertMatch({ok, _}, call(?PROXY, <<"11">>, true, P)).

new_calls_test() ->
    Admission = lists:foldl(fun(_, A) -> {ok, A1} = call(?A, <<"1">>, false, A), A1 end, new(#{}), lists:seq(1, 10)),
    ?assertMatch({too_fast, _}, call(?A, <<"1">>, false, Admission)),
    ?assertMatch({ok, _}, call(?B, <<"1">>, false, Admission)),
    ?assertMatch({ok, _}, lobby_admission:call(?A, {<<"1">>, false}, 200, Admission)).
