-module(lobby_registry_tests).

-include_lib("eunit/include/eunit.hrl").

registry_test_() ->
    {setup, fun() -> {ok, Pid} = lobby_registry:start_link(), Pid end, fun gen_server:stop/1,
     [fun a_name_is_one_processes/0, fun names_end_with_their_process/0, fun names_of_short_lives_end/0, fun a_name_is_given_up/0,
      fun processes_of_a_kind/0]}.

process() -> spawn(fun() -> receive stop -> ok end end).

a_name_is_one_processes() ->
    [A, B] = [process(), process()],
    ?assertEqual(undefined, lobby_registry:whereis_name({room, <<"1">>})),
    ?assertEqual(yes, lobby_registry:register_name({room, <<"1">>}, A)),
    ?assertEqual(yes, lobby_registry:register_name({room, <<"1">>}, A)),
    ?assertEqual(no, lobby_registry:register_name({room, <<"1">>}, B)),
    ?assertEqual(A, lobby_registry:whereis_name({room, <<"1">>})),
    ?assertEqual(A, lobby_registry:send({room, <<"1">>}, hello)),
    ?assertExit({badarg, {nobody, hello}}, lobby_registry:send(nobody, hello)).

%% A name is free as soon as its process ends, so that a supervisor can start the successor.
names_end_with_their_process() ->
    A = process(),
    [yes = lobby_registry:register_name(Name, A) || Name <- [x, y]],
    exit(A, kill),
    ?assertEqual(undefined, lobby_registry:whereis_name(x)),
    ?assertEqual(yes, lobby_registry:register_name(y, self())),
    ?assertEqual(self(), lobby_registry:whereis_name(y)).

%% A name is removed even if its process is killed right after its registration.
names_of_short_lives_end() ->
    [killed_soon({short, N}) || N <- lists:seq(1, 100)],
    lobby_case:until(fun() -> lobby_registry:names(short) =:= [] end).

killed_soon(Name) ->
    Pid = spawn(fun() -> yes = lobby_registry:register_name(Name, self()), receive stop -> ok end end),
    Wait = fun Wait() -> lobby_registry:whereis_name(Name) =:= Pid orelse Wait() end,
    true = Wait(),
    exit(Pid, kill).

a_name_is_given_up() ->
    A = process(),
    yes = lobby_registry:register_name(z, A),
    ?assertEqual(ok, lobby_registry:unregister_name(z)),
    ?assertEqual(ok, lobby_registry:unregister_name(z)),
    ?assertEqual(yes, lobby_registry:register_name(z, self())).

processes_of_a_kind() ->
    [A, B] = [process(), process()],
    [yes = lobby_registry:register_name(Name, Pid) || {Name, Pid} <- [{{seat, 1}, A}, {{seat, 2}, B}, {{table, 1}, A}, {seat, B}]],
    ?assertEqual(lists:sort([A, B]), lists:sort(lobby_registry:processes(seat))),
    ?assertEqual([], lobby_registry:processes(chair)).
