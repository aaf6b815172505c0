%% Searches large worlds for a given time, for `trials/controller/search.sh': breadth first, and in random walks. Prints
%% the seeds of the walks.
-module(large_search).

-export([run/1]).

-define(WORLD, #{people => #{ann => <<"coach">>, bob => <<"customer">>, cay => <<"agent">>},
                 rooms => [<<"1">>, <<"2">>], joined => [{ann, <<"1">>}, {cay, <<"1">>}, {bob, <<"2">>}],
                 rules => lobby_rules:preset(coaching), rulesets => [[], lobby_rules:preset(coaching)],
                 roles => [<<"customer">>, <<"agent">>], seats => #{a => 4, b => 4}, journal => true}).
-define(CHANGES, [join, leave, move, isolate, release, mute, unmute, role, rules, oneway, let_in, watch]).
-define(FAULTS, [kill_room, kill_person, kill_gateway, lose, double, late, lose_gateway, begin_anew]).
-define(PAIR, [take_over, cut]).

%% Runs all searches. The arguments are the seconds for each search, and the first seed.
run([Seconds, Seed]) ->
    Time = 1000 * list_to_integer(Seconds),
    Limits = #{time => Time, workers => erlang:system_info(schedulers_online)},
    Walks = #{seed => list_to_integer(Seed), runs => 1 bsl 40, length => 2000, time => Time},
    Found = [breadth(maps:merge(?WORLD, World), Limits) || World <- worlds()]
        ++ [random(maps:merge(?WORLD, World), Walks) || World <- walked()],
    halt(case lists:append(Found) of [] -> 0; _ -> 1 end).

worlds() ->
    [#{changes => {2, ?CHANGES}, faults => {1, ?FAULTS}},
     #{changes => {2, ?CHANGES}, faults => {0, []}, races => 2},
     #{changes => {1, ?CHANGES}, faults => {2, ?FAULTS}, races => 1},
     #{changes => {2, ?CHANGES}, faults => {1, ?PAIR}, pair => true}].

walked() ->
    [#{changes => {12, ?CHANGES}, faults => {4, ?FAULTS}, races => 4, door => true},
     #{changes => {12, ?CHANGES}, faults => {4, ?PAIR ++ ?FAULTS}, races => 4, pair => true}].

breadth(World, Limits) ->
    io:format("~0p~n", [World]),
    shown(search:breadth(lobby_world:model(World), Limits)).

random(World, Walks = #{seed := Seed}) ->
    io:format("~0p~nfrom seed ~b~n", [World, Seed]),
    shown(search:random(lobby_world:model(World), Walks)).

shown(Result = #{found := Found}) ->
    io:format("~s~n", [search:format(Result)]),
    Found.
