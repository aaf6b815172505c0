%%% @doc A person in a conference as a value: the desired state, as a row in the store, and the requests that wait until
%%% the gateway has it.
%%%
%%% Only the process of the person's call changes the row. It stores a change before it sends the row to a room, so that
%%% the change outlives the process, and follows the person from room to room. A room only makes the gateway match the
%%% rows, and reports the version that the gateway has. Then the request for the change is answered.
%%%
%%% In a move, the new room admits the person, and then the row's `room' changes. The row's `from' names the old room
%%% until that has silenced and released the person. Until then, the new room doesn't add the person. Only one move is
%%% under way at a time.
-module(lobby_person).

-export([new/1, restored/1, handle/2, row/1, is_joining/1, is_settled/1]).
-export_type([person/0, row/0, change/0, event/0, action/0, tag/0, report/0]).

-type id() :: lobby_rules:id().
-type version() :: pos_integer().
%% `moved': the version of the last move. `waiting': the person waits at the room's door. `acknowledged': the person's
%% phone has acknowledged our 200, so it may be sent speech. `call': the key of the call in the store.
-type row() :: #{id := id(), room := lobby_room:name(), from := lobby_room:name() | none, moved := version(),
                 version := version(), role := lobby_rules:role(), isolated := boolean(), muted := boolean(),
                 waiting := boolean(), acknowledged := boolean(), media := lobby_h248:media(),
                 direction := lobby_sdp:direction(), identity := binary(), name => binary(), call => term()}.
-type change() :: #{role => lobby_rules:role(), isolated => boolean(), muted => boolean(), waiting => boolean(),
                    acknowledged => boolean(), media => lobby_h248:media(), direction => lobby_sdp:direction()}.
%% Which request an answer is for. `asked': a request over HTTP, which succeeds only when no phone still sends to a lost
%% gateway. `media': the caller's own offer, which can't wait for other phones. `joins': a new caller's request, which
%% doesn't get `not_yet' while the room waits.
-type tag() :: {asked, From :: term()} | {media, term()} | {joins, term()}.
%% A room's report about a version. `later': no gateway has accepted the version yet. `refused': the gateway refused the
%% person's media with this code; the last element has the media that it still uses, if any.
-type report() :: {holds, version(), Local :: lobby_h248:media(), Everywhere :: boolean()} | {later, version()}
                | {refused, version(), Code :: pos_integer(), lobby_h248:media() | none}.
-type event() :: {join, tag()} | {admitted, lobby_room:name(), ok | {error, term()}} | {change, tag(), change()}
               | {move, tag(), lobby_room:name()} | {report, lobby_room:name(), report()} | again | leave.
-type action() :: {store, row()} | {delete, id()} | {admit, lobby_room:name(), id(), From :: lobby_room:name() | none}
                | {want, lobby_room:name(), row()} | {gone, lobby_room:name(), id()}
                | {answer, tag(), {ok, lobby_h248:media()} | {error, term()}}.

-record(person, {row :: row(), phase = in :: joining | in | {moving, lobby_room:name()},
                 %% The requests that wait for the room's admission, for a version, or for an earlier move.
                 asking = none :: tag() | none, pending = [] :: [{version(), tag()}],
                 moves = [] :: [{tag(), lobby_room:name()}],
                 %% The latest version that the gateway has had, according to the room.
                 held = 0 :: non_neg_integer()}).
-opaque person() :: #person{}.

%% @doc Returns a person who isn't in a room yet.
-spec new(row()) -> person().
new(Row) ->
    #person{row = Row, phase = joining}.

%% @doc Returns a person with a stored row. The event `again' sends it to the room.
-spec restored(row()) -> person().
restored(Row) ->
    #person{row = Row}.

%% @doc Returns a person's row.
-spec row(person()) -> row().
row(#person{row = Row}) -> Row.

%% @doc Returns whether the room hasn't admitted the person yet.
-spec is_joining(person()) -> boolean().
is_joining(#person{phase = Phase}) -> Phase =:= joining.

%% @doc Returns whether no request waits, no move is under way, and the room has reported the latest version. Otherwise,
%% handle `again' from time to time, because a room may have failed before it read a message.
-spec is_settled(person()) -> boolean().
is_settled(#person{row = #{version := Version, from := none}, phase = in, held = Version, pending = []}) -> true;
is_settled(#person{}) -> false.

%% @doc Handles an event. Returns the actions for the call's process, in order.
-spec handle(event(), person()) -> {person(), [action()]}.
handle({join, Tag}, P = #person{phase = joining}) ->
    {P#person{asking = Tag}, [admit(P)]};
handle({admitted, Room, Result}, P = #person{phase = joining, asking = Tag, row = Row = #{room := Room, version := V}})
  when Tag =/= none ->
    case Result of
        ok -> {P#person{phase = in, asking = none, pending = [{V, Tag}]}, [{store, Row}, {want, Room, Row}]};
        {error, _} -> {P#person{asking = none}, [{answer, Tag, Result}]}
    end;
handle({admitted, Room, Result}, P = #person{phase = {moving, Room}, asking = Tag}) ->
    case Result of
        ok -> moved(Room, Tag, P#person{phase = in, asking = none});
        {error, _} -> next_move(P#person{phase = in, asking = none}, [{answer, Tag, Result}])
    end;
handle({change, Tag, Change}, P = #person{row = Row, phase = Phase}) when Phase =/= joining ->
    changed(Tag, maps:merge(Row, Change), P);
handle({move, Tag, To}, P = #person{moves = Moves}) ->
    next_move(P#person{moves = Moves ++ [{Tag, To}]}, []);
handle({report, Room, Report}, P = #person{row = #{room := Room}, phase = Phase}) when Phase =/= joining ->
    reported(Report, P);
handle(again, P = #person{phase = joining, asking = Tag}) when Tag =/= none ->
    {P, [admit(P)]};
handle(again, P = #person{phase = Phase, row = Row = #{room := Room}}) when Phase =/= joining ->
    {P, [{want, Room, Row} | [admit(P) || {moving, _} <- [Phase]]]};
handle(leave, P = #person{row = #{id := Id, room := Room, from := From}, pending = Pending, moves = Moves}) ->
    Waiting = [Tag || {_, Tag} <- Pending] ++ [Tag || {Tag, _} <- Moves] ++ [P#person.asking],
    Rooms = [Room, From | [To || {moving, To} <- [P#person.phase]]],
    {P#person{pending = [], moves = [], asking = none},
     [{delete, Id} | [{gone, R, Id} || R <- Rooms, R =/= none]]
     ++ [{answer, Tag, {error, no_member}} || Tag <- Waiting, Tag =/= none]};
handle(_, P) ->
    {P, []}.

admit(#person{phase = joining, row = #{id := Id, room := Room}}) -> {admit, Room, Id, none};
admit(#person{phase = {moving, To}, row = #{id := Id, room := Room}}) -> {admit, To, Id, Room}.

%% Changes the row. If the row stays the same, the room only reports again.
changed(Tag, Row, P = #person{row = Row = #{room := Room, version := Version}, pending = Pending}) ->
    {P#person{pending = Pending ++ [{Version, Tag}]}, [{want, Room, Row}]};
changed(Tag, Row = #{version := Version}, P = #person{pending = Pending}) ->
    stored(Row, P#person{pending = Pending ++ [{Version + 1, Tag}]}).

%% Stores a new version of the row before it is sent to the room.
stored(Row = #{room := Room, version := Version}, P) ->
    New = Row#{version := Version + 1},
    {P#person{row = New}, [{store, New}, {want, Room, New}]}.

moved(To, Tag, P = #person{row = Row = #{room := Room, version := Version}}) ->
    %% A move by an operator also lets the person in.
    changed(Tag, Row#{room := To, from := Room, moved := Version + 1, waiting := false}, P).

%% Begins the next move, if no move is under way.
next_move(P = #person{phase = in, moves = [{Tag, To} | Moves], row = #{room := Room, from := none}}, Actions) ->
    case To of
        Room -> next_move(P#person{moves = Moves}, Actions ++ [{answer, Tag, {error, same_room}}]);
        _ ->
            Moving = P#person{phase = {moving, To}, moves = Moves, asking = Tag},
            {Moving, Actions ++ [admit(Moving)]}
    end;
next_move(P, Actions) ->
    {P, Actions}.

%% Handles a room's report. Once the new room reports the version of the move or a later one, the move has ended, and
%% the next one can begin.
reported({holds, Version, Local, Everywhere}, P0 = #person{row = Row = #{moved := Moved, from := From}, held = Held}) ->
    {P, Answers} = answered(fun({V, Tag}) -> V =< Version andalso may_answer(Tag, Everywhere) end, {ok, Local},
                            P0#person{held = max(Version, Held)}),
    case From =/= none andalso Version >= Moved of
        true ->
            Settled = Row#{from := none},
            next_move(P#person{row = Settled}, [{store, Settled} | Answers]);
        false ->
            {P, Answers}
    end;
reported({later, Version}, P) ->
    answered(fun({V, Tag}) -> V =< Version andalso element(1, Tag) =/= joins end, {error, not_yet}, P);
%% The row goes back to the media that the gateway still uses, if any.
reported({refused, Version, Code, Media}, P0) ->
    {P = #person{row = Row}, Answers} = answered(fun({V, _}) -> V =< Version end, {error, {refused, Code}}, P0),
    case Media of
        none -> {P, Answers};
        _ ->
            {New, Actions} = stored(Row#{media := Media}, P),
            {New, Actions ++ Answers}
    end.

may_answer({asked, _}, Everywhere) -> Everywhere;
may_answer(_, _) -> true.

answered(Which, Answer, P = #person{pending = Pending}) ->
    {Done, Waiting} = lists:partition(Which, Pending),
    {P#person{pending = Waiting}, [{answer, Tag, Answer} || {_, Tag} <- Done]}.
