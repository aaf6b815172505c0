%% Searches for broken promises: breadth first, through all states up to a limit, or in random walks. The model defines
%% the states, the possible events, and the promises.
-module(search).

-export([breadth/2, random/2, replay/2, format/1]).
-export_type([model/0, limits/0, walks/0, result/0]).

-type state() :: term().
-type event() :: term().
%% A broken promise in a state. The first element of a tuple names the promise.
-type broken() :: term().
%% `events': the events that are possible in a state. `step': the state after an event; a crash is a broken promise,
%% too. `broken': the promises that a state breaks. `final': the promises that a state breaks if no event is possible,
%% or a walk ends in it. States with the same `canonical' value count as the same state. States are values: the same
%% event in equal states leads to equal states.
-type model() :: #{start := state(), events := fun((state()) -> [event()]), step := fun((event(), state()) -> state()),
                   broken := fun((state()) -> [broken()]), final => fun((state()) -> [broken()]),
                   canonical => fun((state()) -> term())}.
%% The maximum numbers of events in a row, states, and milliseconds. `workers': the number of processes that compute
%% steps. `all': continues after a broken promise, and finds the shortest way to each kind of broken promise.
-type limits() :: #{depth => non_neg_integer(), states => pos_integer(), time => pos_integer(),
                    workers => pos_integer(), all => boolean()}.
%% Each walk has the next seed. The time limit is checked between walks.
-type walks() :: #{seed := integer(), runs := pos_integer(), length := pos_integer(), time => pos_integer()}.
%% `levels': for each number of events, the numbers of states, steps and milliseconds up to it. The last level is
%% incomplete if a limit ended it. `limit': the limit that ended the search, or `none' if all states were seen, or all
%% walks made.
-type result() :: #{levels => [level()], walks => walked(), limit := none | depth | states | time | broken,
                    found := [found()]}.
-type level() :: {Events :: non_neg_integer(), States :: non_neg_integer(), Steps :: non_neg_integer(),
                  Milliseconds :: non_neg_integer()}.
-type walked() :: {Walks :: non_neg_integer(), Steps :: non_neg_integer(), Milliseconds :: non_neg_integer()}.
%% The shortest way to a broken promise, or the shrunk walk with this seed.
-type found() :: #{broken := broken(), way := [event()], seed => integer()}.

%% The number of states whose steps are computed between checks of the limits.
-define(BATCH, 256).

%% Fills in defaults: each state is equivalent only to itself, and breaks no promise at the end.
complete(Model) -> maps:merge(#{final => fun(_) -> [] end, canonical => fun(State) -> State end}, Model).

kind(Broken) when is_tuple(Broken) -> element(1, Broken);
kind(Broken) -> Broken.

now_ms() -> erlang:monotonic_time(millisecond).

%%% Breadth first.

%% `seen': the hash of each state's canonical value, with the state and event that first led to it.
-record(search, {model :: model(), limits :: limits(), seen :: ets:tid(), began = now_ms() :: integer(),
                 steps = 0 :: non_neg_integer(), levels = [] :: [level()], found = [] :: [found()]}).

-spec breadth(model(), limits()) -> result().
breadth(Model0, Limits) ->
    Model = #{start := Start} = complete(Model0),
    S = #search{model = Model, limits = Limits, seen = ets:new(?MODULE, [{read_concurrency, true}])},
    {Level, S1} = visit([{none, none, hash(Start, Model), term_to_binary(Start), wrong(Start, Model)}], S),
    Result = level({Level, S1#search{steps = 0}}, 0),
    true = ets:delete(S#search.seen),
    Result.

level({Level, S0 = #search{limits = Limits, seen = Seen, steps = Steps, began = Began, levels = Levels}}, Depth) ->
    S = S0#search{levels = [{Depth, ets:info(Seen, size), Steps, now_ms() - Began} | Levels]},
    case {exceeded(S), Level, Limits} of
        {none, [], _} -> result(none, S);
        {none, _, #{depth := Depth}} -> result(depth, S);
        {none, _, _} -> level(batches(Level, [], S), Depth + 1);
        {Limit, _, _} -> result(Limit, S)
    end.

result(Limit, #search{levels = Levels, found = Found}) ->
    #{levels => lists:reverse(Levels), limit => Limit, found => lists:reverse(Found)}.

exceeded(#search{limits = Limits, seen = Seen, began = Began, found = Found}) ->
    Exceeded = [broken || Found =/= [], not maps:get(all, Limits, false)]
        ++ [states || #{states := Most} <- [Limits], ets:info(Seen, size) >= Most]
        ++ [time || #{time := Most} <- [Limits], now_ms() - Began >= Most],
    hd(Exceeded ++ [none]).

%% Returns the states with which the next level begins. If a limit is exceeded, skips the rest of this level.
batches([], Next, S) ->
    {lists:append(lists:reverse(Next)), S};
batches(Level, Next, S) ->
    {Batch, Rest} = lists:split(min(?BATCH, length(Level)), Level),
    {New, S1} = visit(steps(Batch, S), S),
    case exceeded(S1) of
        none -> batches(Rest, [New | Next], S1);
        _ -> batches([], [New | Next], S1)
    end.

steps(Batch, S = #search{limits = Limits}) ->
    case maps:get(workers, Limits, 1) of
        1 -> steps_from(Batch, S);
        Workers -> lists:append(parallel(Batch, Workers, S))
    end.

%% Returns all steps from these states. Steps to states that were seen before are only counted.
steps_from(Batch, #search{model = Model = #{events := Events}, seen = Seen}) ->
    [case ets:member(Seen, Hash) of
         true -> seen;
         false -> {From, Event, Hash, term_to_binary(State), Wrong}
     end || {From, Packed} <- Batch, Before <- [binary_to_term(Packed)], Event <- Events(Before),
            {Hash, State, Wrong} <- [outcome(step(Event, Before, Model), {From, Event}, Seen, Model)]].

outcome({ok, State}, _, Seen, Model) ->
    Hash = hash(State, Model),
    {Hash, State, case ets:member(Seen, Hash) of true -> []; false -> wrong(State, Model) end};
outcome(Crashed, Origin, _, _) ->
    {erlang:md5(term_to_binary(Origin)), none, [Crashed]}.

step(Event, State, #{step := Step}) ->
    try Step(Event, State) of
        Next -> {ok, Next}
    catch
        Class:Reason:Stack -> {crashed, {Class, Reason}, hd(Stack)}
    end.

parallel(Batch, Workers, S) ->
    Size = (length(Batch) + Workers - 1) div Workers,
    Monitors = [element(2, spawn_monitor(fun() -> exit({steps, steps_from(Part, S)}) end))
                || Part <- parts(Batch, Size)],
    [receive
         {'DOWN', Monitor, process, _, {steps, Steps}} -> Steps;
         {'DOWN', Monitor, process, _, Reason} -> error({worker, Reason})
     end || Monitor <- Monitors].

parts([], _) -> [];
parts(List, Size) ->
    {Part, Rest} = lists:split(min(Size, length(List)), List),
    [Part | parts(Rest, Size)].

%% Notes new states. The search doesn't continue from a state that breaks a promise.
visit(Steps, S = #search{steps = Count}) ->
    {New, S1} = lists:foldl(fun visit_one/2, {[], S#search{steps = Count + length(Steps)}}, Steps),
    {lists:reverse(New), S1}.

visit_one(seen, Acc) -> Acc;
visit_one({From, Event, Hash, Packed, Broken}, {New, S = #search{seen = Seen}}) ->
    case {ets:insert_new(Seen, {Hash, From, Event}), Broken} of
        {false, _} -> {New, S};
        {true, []} -> {[{Hash, Packed} | New], S};
        {true, _} -> {New, lists:foldl(fun(One, Acc) -> found(One, Hash, Acc) end, S, Broken)}
    end.

found(Broken, Hash, S = #search{seen = Seen, found = Found}) ->
    case [known || #{broken := Known} <- Found, kind(Known) =:= kind(Broken)] of
        [] -> S#search{found = [#{broken => Broken, way => way(Hash, Seen, [])} | Found]};
        _ -> S
    end.

way(Hash, Seen, Way) ->
    case ets:lookup(Seen, Hash) of
        [{_, none, none}] -> Way;
        [{_, From, Event}] -> way(From, Seen, [Event | Way])
    end.

hash(State, #{canonical := Canonical}) ->
    erlang:md5(term_to_binary(Canonical(State), [deterministic])).

%% Returns the promises that a state breaks, including the final ones if no event is possible.
wrong(State, Model = #{events := Events}) ->
    case broken(State, Model) of
        [] -> case Events(State) of [] -> final(State, Model); _ -> [] end;
        Broken -> Broken
    end.

broken(State, #{broken := Broken}) -> Broken(State).
final(State, #{final := Final}) -> Final(State).

%%% Random walks.

-spec random(model(), walks()) -> result().
random(Model, Walks = #{seed := Seed, runs := Runs}) ->
    walks(Seed, Seed + Runs, complete(Model), Walks, {0, now_ms()}).

walks(Seed, End, Model, Walks = #{seed := First, length := Length}, {Steps, Began}) ->
    Passed = now_ms() - Began,
    Result = #{walks => {Seed - First, Steps, Passed}, limit => none, found => []},
    case maps:get(time, Walks, infinity) of
        _ when Seed =:= End -> Result;
        Most when Passed >= Most -> Result#{limit := time};
        _ -> case walk(Model, Length, Seed) of
            {Way, []} ->
                walks(Seed + 1, End, Model, Walks, {Steps + length(Way), Began});
            {Way, [Broken | _]} ->
                {Still, Least} = shrunk(Way, Broken, Model),
                Result#{limit := broken, found := [#{broken => Still, way => Least, seed => Seed}]}
        end
    end.

walk(Model = #{start := Start}, Length, Seed) ->
    walk({ok, Start}, Model, Length, rand:seed_s(exsss, Seed), []).

walk({ok, State}, Model = #{events := Events}, Left, Rand, Way) ->
    case {broken(State, Model), Events(State)} of
        {[], Possible = [_ | _]} when Left > 0 ->
            {N, Next} = rand:uniform_s(length(Possible), Rand),
            Event = lists:nth(N, Possible),
            walk(step(Event, State, Model), Model, Left - 1, Next, [Event | Way]);
        {[], _} -> {lists:reverse(Way), final(State, Model)};
        {Broken, _} -> {lists:reverse(Way), Broken}
    end;
walk(Crashed, _, _, _, Way) ->
    {lists:reverse(Way), [Crashed]}.

%% Shrinks a sequence of events: removes ever smaller parts, if the rest still breaks the same promise.
shrunk(Way, Broken, Model) ->
    shrunk(max(1, length(Way) div 2), Way, Broken, Model).

shrunk(Size, Way, Broken, Model) ->
    Shorter = [lists:sublist(Way, From) ++ lists:nthtail(min(From + Size, length(Way)), Way)
               || From <- lists:seq(0, length(Way) - 1, Size)],
    case first([Also || One <- Shorter, Also <- [fun() -> breaks(One, kind(Broken), Model) end]]) of
        {Still, Less} -> shrunk(min(Size, max(1, length(Less))), Less, Still, Model);
        none when Size > 1 -> shrunk(Size div 2, Way, Broken, Model);
        none -> {Broken, Way}
    end.

first([]) -> none;
first([Try | Rest]) -> case Try() of none -> first(Rest); Found -> Found end.

breaks(Events, Kind, Model) ->
    {Way, Broken} = replay(Events, Model),
    case [One || One <- Broken, kind(One) =:= Kind] of
        [One | _] -> {One, Way};
        [] -> none
    end.

%% @doc Replays the given events, except the impossible ones, up to the first broken promise. Returns these events, and the
%% promises broken after them.
-spec replay([event()], model()) -> {[event()], [broken()]}.
replay(Events, Model0) ->
    Model = #{start := Start} = complete(Model0),
    replay(Events, {ok, Start}, Model, []).

replay(Events, {ok, State}, Model = #{events := Possible}, Way) ->
    case {broken(State, Model), Events} of
        {[], [Event | Rest]} ->
            case lists:member(Event, Possible(State)) of
                true -> replay(Rest, step(Event, State, Model), Model, [Event | Way]);
                false -> replay(Rest, {ok, State}, Model, Way)
            end;
        {[], []} -> {lists:reverse(Way), final(State, Model)};
        {Broken, _} -> {lists:reverse(Way), Broken}
    end;
replay(_, Crashed, _, Way) ->
    {lists:reverse(Way), [Crashed]}.

%% @doc Formats a result as text: the size of the search, and the ways to broken promises.
-spec format(result()) -> iodata().
format(Result = #{limit := Limit, found := Found}) ->
    [[io_lib:format("~b events: ~b states, ~b steps, ~b ms~n", tuple_to_list(Level))
      || Level <- maps:get(levels, Result, [])],
     [io_lib:format("~b walks: ~b steps, ~b ms~n", tuple_to_list(Walks)) || #{walks := Walks} <- [Result]],
     case Limit of none -> "This is all.\n"; _ -> io_lib:format("Ended by: ~s~n", [Limit]) end,
     [[io_lib:format("~0p", [Broken]), [io_lib:format(" (seed ~b)", [Seed]) || #{seed := Seed} <- [One]],
       [io_lib:format("~n    ~0p", [Event]) || Event <- Way], $\n] || One = #{broken := Broken, way := Way} <- Found]].
