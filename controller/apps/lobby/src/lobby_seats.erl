%%% @doc The terminations on a gateway, with their members, and the seats in use. A seat is a person's termination, or a
%%% room's reservation for one.
%%%
%%% A room reserves seats for all of its members before it adds any. A person who moves to another room on the same
%%% gateway keeps the seat. The terminations are known from the gateway's replies. Restarted rooms need them, and
%%% orphaned ones must be subtracted.
-module(lobby_seats).

-export([new/2, kept/2, reserve/3, keep/3, noted/4, let_go/3, ended/2, forget/1]).
-export([holdings/2, owners/3, rooms/1, latest/1, entries/1, load/1]).
-export_type([seats/0, entry/0, change/0]).

-type id() :: lobby_rules:id().
-type room() :: lobby_room:name().
-type termination() :: lobby_h248:termination().
%% The entry of a termination. `given': its old room has released it to `room', which hasn't moved it yet.
-type entry() :: #{context := lobby_h248:context(), room := room(), member := id(), local := lobby_h248:media(),
                   given := boolean()}.
%% A change that the store has to make.
-type change() :: {put, termination(), entry()} | {delete, termination()}.
-record(seats, {max_terminations :: pos_integer(), max_contexts :: pos_integer(),
                entries = #{} :: #{termination() => entry()}, reserved = #{} :: #{room() => [id()]}}).
-opaque seats() :: #seats{}.

%% @doc Returns the seats of a gateway without terminations.
-spec new(MaxTerminations :: pos_integer(), MaxContexts :: pos_integer()) -> seats().
new(MaxTerminations, MaxContexts) ->
    #seats{max_terminations = MaxTerminations, max_contexts = MaxContexts}.

%% @doc Sets the terminations to the stored ones.
-spec kept([{termination(), entry()}], seats()) -> seats().
kept(Entries, S) ->
    S#seats{entries = maps:from_list(Entries)}.

%% @doc Reserves seats for all members of a room, including future ones. If there are too few seats or contexts, changes
%% nothing and returns `false'.
-spec reserve(room(), [id()], seats()) -> {boolean(), seats()}.
reserve(Room, Ids, S) ->
    With = keep(Room, Ids, S),
    case load(With) of
        #{terminations := Used, contexts := Contexts, max_terminations := Max, max_contexts := MaxContexts}
          when Used =< Max, Contexts =< MaxContexts -> {true, With};
        _ -> {false, S}
    end.

%% @doc Sets a room's reservation to these members. Members who have left no longer need seats.
-spec keep(room(), [id()], seats()) -> seats().
keep(Room, [], S = #seats{reserved = Reserved}) -> S#seats{reserved = maps:remove(Room, Reserved)};
keep(Room, Ids, S = #seats{reserved = Reserved}) -> S#seats{reserved = Reserved#{Room => Ids}}.

%% @doc Notes the reply to a room's request. The ids are those of the members that the request was to add, in order.
-spec noted(room(), [id()], lobby_h248:reply(), seats()) -> {[change()], seats()}.
noted(Room, Ids, #{context := Context, results := Results}, S) ->
    Note = fun(Result, Acc) -> note(Result, {Room, Context}, Acc) end,
    {_, Entries} = lists:foldl(Note, {Ids, S#seats.entries}, Results),
    changed(Entries, S).

note({add, T, #{local := Local}}, {Room, Context}, {[Id | Ids], Entries}) ->
    {Ids, Entries#{T => #{context => Context, room => Room, member => Id, local => Local, given => false}}};
note({add, _, _}, _, {[_ | Ids], Entries}) ->
    {Ids, Entries};
note({move, T, #{}}, {Room, Context}, {Ids, Entries}) when is_map_key(T, Entries) ->
    #{T := Entry} = Entries,
    {Ids, Entries#{T := Entry#{context := Context, room := Room, given := false}}};
note({subtract, T, #{}}, _, {Ids, Entries}) ->
    {Ids, maps:remove(T, Entries)};
note(_, _, Acc) ->
    Acc.

changed(New, S = #seats{entries = Old}) ->
    {[{put, T, Entry} || {T, Entry} <- maps:to_list(New), maps:get(T, Old, none) =/= Entry] ++
         [{delete, T} || T <- maps:keys(Old), not is_map_key(T, New)], S#seats{entries = New}}.

%% @doc Releases a termination to another room.
-spec let_go(termination(), room(), seats()) -> {[change()], seats()}.
let_go(T, To, S = #seats{entries = Entries}) ->
    case Entries of
        #{T := Entry} -> changed(Entries#{T := Entry#{room := To, given := true}}, S);
        #{} -> {[], S}
    end.

%% @doc Notes that a termination, or all terminations of a context, no longer exist.
-spec ended(termination() | {all, lobby_h248:context()}, seats()) -> {[change()], seats()}.
ended({all, Context}, S = #seats{entries = Entries}) ->
    changed(maps:filter(fun(_, #{context := In}) -> In =/= Context end, Entries), S);
ended(T, S = #seats{entries = Entries}) ->
    changed(maps:remove(T, Entries), S).

%% @doc Forgets all terminations and reservations, because the gateway was lost. Returns the contexts that it may still
%% have.
-spec forget(seats()) -> {[lobby_h248:context()], [change()], seats()}.
forget(S = #seats{entries = Entries}) ->
    {Changes, Forgotten} = changed(#{}, S),
    {lists:usort([Context || #{context := Context} <- maps:values(Entries)]), Changes, Forgotten#seats{reserved = #{}}}.

%% @doc Returns a room's terminations.
-spec holdings(room(), seats()) -> [lobby_conference:holding()].
holdings(Room, #seats{entries = Entries}) ->
    [(maps:with([context, member, local, given], Entry))#{termination => T}
     || {T, Entry = #{room := Of}} <- lists:sort(maps:to_list(Entries)), Of =:= Room].

%% @doc Returns `other' for each termination that another room has in this room's context, and `own' for all others. If
%% this context has a termination whose entry names another context, another node has moved the termination, and this
%% node didn't learn of it. So no other room knows that the termination is here.
-spec owners(room(), lobby_h248:context(), seats()) -> lobby_conference:owner().
owners(Room, Context, #seats{entries = Entries}) ->
    maps:map(fun(_, #{room := Of, context := In}) when Of =/= Room, In =:= Context -> other;
                (_, _) -> own
             end, Entries).

%% @doc Returns the rooms that use the gateway.
-spec rooms(seats()) -> [room()].
rooms(#seats{entries = Entries, reserved = Reserved}) ->
    lists:usort(maps:keys(Reserved) ++ [Room || #{room := Room} <- maps:values(Entries)]).

%% @doc Returns each room's latest context.
-spec latest(seats()) -> #{room() => lobby_h248:context()}.
latest(#seats{entries = Entries}) ->
    maps:from_list(lists:sort([{Room, Context} || #{room := Room, context := Context, given := false} <- maps:values(Entries)])).

%% @doc Returns all terminations with their entries.
-spec entries(seats()) -> [{termination(), entry()}].
entries(#seats{entries = Entries}) ->
    maps:to_list(Entries).

%% @doc Returns the gateway's load. The sentinel and its context count.
-spec load(seats()) -> #{atom() => non_neg_integer()}.
load(S = #seats{entries = Entries, reserved = Reserved, max_terminations = Max, max_contexts = MaxContexts}) ->
    With = lists:usort([Id || #{member := Id} <- maps:values(Entries)]),
    People = lists:usort(With ++ lists:append(maps:values(Reserved))),
    %% A person has two terminations while one of them is being subtracted.
    Used = length(People) + map_size(Entries) - length(With) + 1,
    #{terminations => Used, contexts => length(rooms(S)) + 1, max_terminations => Max, max_contexts => MaxContexts}.
