%%% @doc Token buckets by key. Each admits a given rate per second, and bursts of twice that number.
-module(lobby_buckets).

-export([new/0, take/4]).
-export_type([buckets/0]).

%% By key, the thousandths of tokens that a bucket lacked at a time in milliseconds. Full buckets needn't be kept.
-opaque buckets() :: {#{term() => {Missing :: pos_integer(), At :: integer()}}, Swept :: integer()}.
%% The maximum number of buckets. All further keys share one bucket, so that forged addresses can't exhaust the memory.
-define(MAX, 10000).

-spec new() -> buckets().
new() -> {#{}, 0}.

%% @doc Takes a token. Returns `false' if the bucket is empty.
-spec take(Key :: term(), Rate :: pos_integer(), Now :: integer(), buckets()) -> {boolean(), buckets()}.
take(Key, Rate, Now, {Map, Swept}) when map_size(Map) >= ?MAX, Key =/= others, not is_map_key(Key, Map) ->
    case Now - Swept of
        %% Every bucket gains at least one token a second.
        Passed when abs(Passed) >= 1000 ->
            take(Key, Rate, Now, {maps:filter(fun(_, {M, At}) -> M > Now - At end, Map), Now});
        _ -> take(others, Rate, Now, {Map, Swept})
    end;
take(Key, Rate, Now, {Map, Swept}) ->
    {Before, At} = maps:get(Key, Map, {0, Now}),
    case max(0, Before - Rate * (Now - At)) + 1000 of
        Missing when Missing =< 2000 * Rate -> {true, {Map#{Key => {Missing, Now}}, Swept}};
        _ -> {false, {Map, Swept}}
    end.
