%%% @doc The format of the audit log: writes and reads lines, and selects the lines that match a query.
%%%
%%% A change has two lines: one before it is made, and one with its answer. If the second line is missing, the
%%% controller may have ended in between, and the change may or may not have been made.
-module(lobby_audit_core).

-export([line/3, time/1, entries/1, last_number/1, query/1, selects/2, names/1, seen/2]).
-export_type([entry/0, query/0, seen/0]).

%% The keys and values of a line, in order, except for its number and time.
-type entry() :: [{atom(), term()}].
-type line() :: #{binary() => term()}.
%% `from' and `to': Unix times in milliseconds. `after': selects only lines with higher numbers.
-type query() :: #{room => binary(), gateway => binary(), from => integer(), to => integer(), 'after' => integer()}.
%% The rooms, roles and codecs that a call has had. Each list begins with the newest value.
-type seen() :: #{rooms | roles | codecs => [binary()]}.

%% The maximum number of rooms, roles or codecs that are recorded for a call.
-define(MAX_SEEN, 64).
%% The limits of `heard --names': the number of names, and the bytes in a name.
-define(MAX_NAMES, 1024).
-define(MAX_NAME, 64).

%% @doc Returns a line of the log. Numbers rise by one from line to line, even if the clock is set back.
-spec line(pos_integer(), Milliseconds :: integer(), entry()) -> iolist().
line(Number, Now, Entry) ->
    [jiffy:encode({[{n, Number}, {at, time(Now)} | Entry]}, [force_utf8]), $\n].

-spec time(Milliseconds :: integer()) -> binary().
time(At) ->
    list_to_binary(calendar:system_time_to_rfc3339(At, [{unit, millisecond}, {offset, "Z"}])).

%% @doc Returns the lines of a text, without incomplete ones. A line is incomplete if the controller was killed, its
%% host crashed, or the disk was full while the line was written.
-spec entries(binary()) -> [line()].
entries(Text) ->
    [Line || Bytes <- binary:split(Text, <<"\n">>, [global, trim_all]), Line = #{<<"n">> := N} <- [entry(Bytes)],
             is_integer(N)].

entry(Bytes) ->
    try jiffy:decode(Bytes, [return_maps]) catch error:_ -> none end.

-spec last_number(binary()) -> non_neg_integer().
last_number(Text) ->
    lists:max([0 | [N || #{<<"n">> := N} <- entries(Text)]]).

%% @doc Parses the query of a request. If it is malformed, throws `{invalid, Text}' with a text that describes the
%% error.
-spec query([{binary(), binary() | true}]) -> query().
query(Pairs) ->
    Keys = [Key || {Key, _} <- Pairs],
    _ = [throw({invalid, <<"\"", Key/binary, "\" is given twice">>}) || Key <- lists:usort(Keys -- lists:usort(Keys))],
    Query = maps:from_list([value(Key, Value) || {Key, Value} <- Pairs]),
    _ = [throw({invalid, <<"\"from\" is later than \"to\"">>}) || #{from := From, to := To} <- [Query], From > To],
    Query.

value(<<"room">>, Room) when is_binary(Room) -> {room, Room};
value(<<"gateway">>, Gateway) when is_binary(Gateway) -> {gateway, Gateway};
value(Key, Text) when Key =:= <<"from">>; Key =:= <<"to">> ->
    Wrong = <<"\"", Key/binary, "\" must be a time such as 2026-11-27T14:03:20.5Z">>,
    {binary_to_existing_atom(Key), read(fun at/1, Text, Wrong)};
value(<<"after">>, Text) -> {'after', read(fun number/1, Text, <<"\"after\" must be a line's number">>)};
value(Key, _) -> throw({invalid, <<"the query has the unknown key \"", Key/binary, "\"">>}).

read(Read, Text, Wrong) ->
    try Read(Text) catch error:_ -> throw({invalid, Wrong}) end.

number(Text) ->
    {match, _} = re:run(Text, "^[0-9]{1,18}$", [dollar_endonly]),
    binary_to_integer(Text).

-spec selects(query(), line()) -> boolean().
selects(Query, Line = #{<<"n">> := N}) ->
    Is = fun({room, Room}) -> lists:member(Room, maps:get(<<"rooms">>, Line, []));
            ({gateway, Gateway}) -> maps:get(<<"gateway">>, Line, none) =:= Gateway;
            ({'after', Number}) -> N > Number;
            ({from, From}) -> at(maps:get(<<"at">>, Line)) >= From;
            ({to, To}) -> at(maps:get(<<"at">>, Line)) =< To
         end,
    lists:all(Is, maps:to_list(Query)).

at(Text) -> calendar:rfc3339_to_system_time(binary_to_list(Text), [{unit, millisecond}]).

%% @doc Returns the contents of a file for `mg_bridge heard --names': each termination of a gateway, with its member's
%% name. Throws `{two_names, Termination}' if a termination has two names, and `too_many_names' above the limit.
-spec names([line()]) -> iolist().
names(Lines) ->
    Named = lists:usort([{T, Member, name(Line)} || Line = #{<<"event">> := <<"seat">>} <- Lines,
                                                    #{<<"termination">> := T, <<"member">> := Member} <- [Line]]),
    Terminations = [T || {T, _, _} <- Named],
    _ = [throw({two_names, T}) || T <- Terminations -- lists:usort(Terminations)],
    _ = [throw(too_many_names) || length(Named) > ?MAX_NAMES],
    [["RTP/", integer_to_list(T), ",\"", Name, "\"\n"] || {T, _, Name} <- Named].

%% Callers can choose any name, so a name that isn't proved gets the member's id.
name(#{<<"caller">> := Name, <<"proved">> := true}) -> printable(Name, ?MAX_NAME);
name(#{<<"caller">> := Name, <<"member">> := Id}) ->
    [printable(Name, ?MAX_NAME - byte_size(Id) - 3), " (", Id, ")"].

%% Truncates a name, and replaces characters that reverse or hide text, or that the file's format doesn't allow.
printable(Name, Size) ->
    Plain = re:replace(Name, "[\\p{C}\\p{Zl}\\p{Zp}\"\\\\]", "?", [global, unicode, ucp, {return, binary}]),
    case unicode:characters_to_binary(binary:part(Plain, 0, min(Size, byte_size(Plain)))) of
        {incomplete, Whole, _} -> Whole;
        Whole -> Whole
    end.

%% @doc Adds the caller's current room, role and codec to the lists of the call.
-spec seen(lobby_person:row(), seen()) -> seen().
seen(#{room := Room, role := Role, media := {_, Format}}, Seen) ->
    New = #{rooms => [Room], roles => [Role], codecs => [string:uppercase(atom_to_binary(Format))]},
    maps:merge_with(fun(_, Values = [Value | _], [Value]) -> Values;
                       (_, Values, [Value]) -> lists:sublist([Value | Values], ?MAX_SEEN)
                    end, Seen, New).
