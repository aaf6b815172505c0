%%% @doc Chooses the gateway of each conference. One process chooses for all rooms, one after the other. If many rooms
%%% chose at the same time, all would choose the same gateway, and couldn't grow there.
-module(lobby_placement).
-behaviour(gen_server).

-export([start_link/0, place/4, ranked/3]).
-export([init/1, handle_call/3, handle_cast/2]).
-export_type([load/0]).

-type handle() :: lobby_gateway:handle().
%% A gateway's load: the terminations and contexts that are in use or reserved, the gateway's limits, and whether it is
%% being drained.
-type load() :: #{terminations := non_neg_integer(), contexts := non_neg_integer(),
                  max_terminations := pos_integer(), max_contexts := pos_integer(), draining := boolean()}.

-spec start_link() -> gen_server:start_ret().
start_link() ->
    gen_server:start_link({local, ?MODULE}, ?MODULE, [], []).

%% @doc Reserves seats for all members of a room on the preferred gateway or, if that fails, on another one. Of the
%% others, those with the most free seats come first. Never chooses the gateway `Except'.
-spec place(lobby_room:name(), [lobby_rules:id()], Prefer :: handle() | none, Except :: handle() | none) ->
          handle() | none.
place(Room, Ids, Prefer, Except) ->
    try
        gen_server:call(?MODULE, {place, Room, Ids, Prefer, Except})
    catch
        exit:{_, {gen_server, call, _}} -> none
    end.

-spec init([]) -> {ok, none}.
init([]) ->
    {ok, none}.

%% The gateway's process decides whether the gateway has the seats.
-spec handle_call({place, lobby_room:name(), [lobby_rules:id()], handle() | none, handle() | none},
                  gen_server:from(), none) -> {reply, handle() | none, none}.
handle_call({place, Room, Ids, Prefer, Except}, _, State) ->
    Others = [{Handle, Load} || {Handle, Load} <- lobby_gateway:serving(), Handle =/= Except],
    Accepts = fun(Handle) -> lobby_gateway:reserve(Handle, Room, Ids) end,
    case lists:search(Accepts, ranked(length(Ids), Prefer, Others)) of
        {value, Handle} -> {reply, Handle, State};
        false -> {reply, none, State}
    end.

-spec handle_cast(term(), none) -> {noreply, none}.
handle_cast(_, State) ->
    {noreply, State}.

%% @doc Returns the gateways that may have this many seats and a context, the best first. The preferred gateway comes
%% first, whatever its load, because a member who moves there may already have a seat. A gateway that is being drained
%% isn't chosen.
-spec ranked(Members :: non_neg_integer(), Prefer :: handle() | none, [{handle(), load()}]) -> [handle()].
ranked(Members, Prefer, All) ->
    Gateways = [{Handle, Load} || {Handle, Load = #{draining := false}} <- All],
    Fitting = [{-free(Load), Handle} || {Handle, Load} <- Gateways, Handle =/= Prefer, free(Load) >= Members,
                                        has_context(Load)],
    [Handle || {Handle, _} <- Gateways, Handle =:= Prefer] ++ [Handle || {_, Handle} <- lists:sort(Fitting)].

free(#{terminations := Used, max_terminations := Max}) -> Max - Used.

has_context(#{contexts := Used, max_contexts := Max}) -> Used < Max.
