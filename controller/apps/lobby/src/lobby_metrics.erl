%%% @doc Metrics in Prometheus' text format.
-module(lobby_metrics).

-export([text/0]).

%% @doc Returns all metrics in Prometheus' text format.
-spec text() -> binary().
text() ->
    Serving = lobby_gateway:serving(),
    Counters = maps:groups_from_list(fun({{Name, _}, _}) -> Name end, fun({{_, Gateway}, N}) -> {Gateway, N} end,
                                     lobby_events:counts()),
    iolist_to_binary([
        family("lobby_rooms", "gauge", [{none, lobby_store:size(lobby_rooms)}]),
        family("lobby_calls", "gauge", [{none, lobby_store:size(lobby_calls)}]),
        family("lobby_gateways_serving", "gauge", [{none, length(Serving)}]),
        family("lobby_gateway_terminations", "gauge",
               [{lobby_gateway:name(Handle), Used} || {Handle, #{terminations := Used}} <- Serving])
        | [family(atom_to_list(Name), "counter", Samples) || {Name, Samples} <- lists:sort(maps:to_list(Counters))]]).

family(Name, Type, Samples) ->
    ["# TYPE ", Name, " ", Type, "\n"
     | [[Name, label(Gateway), " ", integer_to_list(Value), "\n"] || {Gateway, Value} <- Samples]].

label(none) -> [];
label(Gateway) -> ["{gateway=\"", escaped(Gateway), "\"}"].

escaped(Name) ->
    binary:replace(binary:replace(Name, [<<"\\">>, <<"\"">>], <<"\\">>, [global, {insert_replaced, 1}]),
                   <<"\n">>, <<"\\n">>, [global]).
