%%% @doc The supervisors. At the top, each child depends on the children before it. If a child fails, that child and
%%% those after it are restarted, and continue with the stored state.
-module(lobby_sup).
-behaviour(supervisor).

-export([start_link/1, start_link/2, init/1]).

%% The registered names of most processes below lobby_serving. `lobby' is pg's scope.
-define(SERVING, [lobby, lobby_aside_sup, lobby_registry, lobby_gateway_sup, lobby_room_sup, lobby_room_keeper,
                  lobby_call_sup, lobby_web_sup, lobby_call_keeper, lobby_sip, lobby_tcp_sup, lobby_connections]).

-type children() :: {serving | aside, lobby_config:config()} | {gateways, [lobby_gateway:config()]}
                  | {tcp, lobby_sip:config()} | {many, module()}.

-spec start_link(lobby_config:config()) -> supervisor:startlink_ret().
start_link(Config) ->
    supervisor:start_link({local, ?MODULE}, ?MODULE, {top, Config}).

%% @doc Starts a supervisor below the top, which is registered with this name.
-spec start_link(Name :: atom(), children()) -> supervisor:startlink_ret().
start_link(Name, Children) ->
    lists:foreach(fun await_end/1, [Name | left_over(Children)]),
    supervisor:start_link({local, Name}, ?MODULE, Children).

%% Returns processes of a supervisor's predecessor. If that was killed, these processes end a moment later.
left_over({serving, _}) -> ?SERVING;
left_over({gateways, _}) -> lobby_registry:processes(gateway);
left_over({many, lobby_room}) -> lobby_registry:processes(room);
left_over({many, lobby_call}) -> lobby_registry:processes(call);
left_over({many, lobby_web}) -> [Pid || {{web, _}, Pid} <- lobby_registry:names(call)];
left_over(_) -> [].

await_end(Name) ->
    Monitor = monitor(process, Name),
    receive {'DOWN', Monitor, process, _, _} -> ok end.

-spec init({top, lobby_config:config()} | children()) -> {ok, {supervisor:sup_flags(), [supervisor:child_spec()]}}.
%% In a pair, the node that has the lease starts lobby_serving.
init({top, Config = #{pair := Pair}}) ->
    Serving = sup(lobby_serving, {serving, Config}),
    in_order([child(lobby_store, [maps:with([store, pair], Config)]),
              case Pair of none -> Serving; #{} -> child(lobby_lease, [maps:with([pair, sip], Config), Serving]) end]);
init({serving, Config = #{gateways := Gateways}}) ->
    Sip = maps:without([gateways, store, pair, http, tokens, audit_log, rtpengine, ice_servers], Config),
    in_order([#{id => pg, start => {pg, start_link, [lobby]}},
              sup(lobby_aside_sup, {aside, Config}),
              child(lobby_registry, []),
              sup(lobby_gateway_sup, {gateways, Gateways}),
              child(lobby_placement, []),
              sup(lobby_room_sup, {many, lobby_room}),
              (child(lobby_keeper, [room]))#{id := lobby_room_keeper},
              sup(lobby_call_sup, {many, lobby_call}),
              sup(lobby_web_sup, {many, lobby_web}),
              child(lobby_sip, [Sip]),
              (child(lobby_keeper, [call]))#{id := lobby_call_keeper},
              sup(lobby_tcp_sup, {tcp, Sip}),
              (child(lobby_http, [maps:with([http, tokens, tls], Config)]))#{type => supervisor}]);
%% A failure of one child leaves the others running.
init({aside, #{audit_log := Audit, rtpengine := Rtpengine}}) ->
    {ok, {#{strategy => one_for_one, intensity => 20, period => 10},
          [child(lobby_audit, [Audit]), child(lobby_rtpengine, [Rtpengine])]}};
init({gateways, Gateways}) ->
    ok = lobby_gateway:new_loads(),
    {ok, {#{strategy => one_for_one, intensity => 20, period => 10},
          [(child(lobby_gateway, [Gateway]))#{id := Name} || Gateway = #{name := Name} <- Gateways]}};
init({tcp, Config = #{sip := Own, tls := Tls}}) ->
    Ports = [{listener, Own, none} | [{tls_listener, OwnTls, Tls} || #{sip := OwnTls} <- [Tls], OwnTls =/= none]],
    in_order([sup(lobby_connections, {many, lobby_tcp})
              | [(child(lobby_listener, [Port, Secured, Config]))#{id := Id, shutdown => brutal_kill}
                 || {Id, Port, Secured} <- Ports]]);
%% `lobby_keeper' restarts rooms and calls that fail. Nothing restarts a connection.
init({many, Module}) ->
    {ok, {#{strategy => simple_one_for_one}, [(child(Module, []))#{restart => temporary}]}}.

in_order(Children) -> {ok, {#{strategy => rest_for_one, intensity => 10, period => 10}, Children}}.

child(Module, Arguments) -> #{id => Module, start => {Module, start_link, Arguments}}.

sup(Name, Children) -> #{id => Name, start => {?MODULE, start_link, [Name, Children]}, type => supervisor}.
