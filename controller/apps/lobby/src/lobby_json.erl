%%% @doc The JSON of the HTTP interface, as jiffy's terms (with maps).
-module(lobby_json).

-export([decode/1, encode/1, rules/1, text/2, number/3, flag/2, room/3, named/2]).
-export_type([json/0]).

-define(NO_RULE, <<"a rule must be {\"hears\": true or false, \"talker\": PARTY, \"listener\": PARTY}, "
                   "where PARTY is \"everyone\", {\"role\": TEXT} or {\"member\": ID}">>).

-type json() :: #{binary() | atom() => term()}.

%% @doc Decodes a JSON object. Like all functions here that read a body, it throws `{invalid, Text}' if the body is
%% malformed.
-spec decode(binary()) -> #{binary() => term()}.
decode(Text) ->
    try jiffy:decode(Text) of
        {Pairs} ->
            Keys = [Key || {Key, _} <- Pairs],
            _ = [invalid(<<"the body has the key \"", Key/binary, "\" twice">>) || Key <- Keys -- lists:usort(Keys)],
            jiffy:decode(Text, [return_maps]);
        _ -> invalid(<<"the body is not a JSON object">>)
    catch
        %% jiffy's error is a position and a name.
        error:{At, Reason} when is_integer(At), is_atom(Reason) ->
            invalid(iolist_to_binary(io_lib:format("the body is not JSON: ~s at byte ~b", [Reason, At])));
        %% A number that is too large raises another error.
        error:_ -> invalid(<<"the body is not JSON">>)
    end.

-spec invalid(binary()) -> no_return().
invalid(Text) ->
    throw({invalid, Text}).

%% @doc Encodes JSON. Invalid UTF-8, as in callers' names, is replaced.
-spec encode(json()) -> iodata().
encode(Json) ->
    jiffy:encode(Json, [force_utf8]).

%% @doc Returns the rules in {"rules": [..]} or {"preset": ".."}.
-spec rules(#{binary() => term()}) -> [lobby_rules:rule()].
rules(#{<<"preset">> := Preset}) ->
    case [Known || Known <- [plain, lecture, coaching, monitored], atom_to_binary(Known) =:= Preset] of
        [Known] -> lobby_rules:preset(Known);
        [] -> invalid(<<"\"preset\" must be plain, lecture, coaching or monitored">>)
    end;
rules(#{<<"rules">> := Rules}) when is_list(Rules) ->
    [rule(Rule) || Rule <- Rules];
rules(_) ->
    invalid(<<"\"rules\" or \"preset\" is missing">>).

rule(#{<<"hears">> := Hears, <<"talker">> := Talker, <<"listener">> := Listener}) when is_boolean(Hears) ->
    {case Hears of true -> allow; false -> deny end, party(Talker), party(Listener)};
rule(_) ->
    invalid(?NO_RULE).

party(<<"everyone">>) -> everyone;
party(Party = #{<<"role">> := Role}) when map_size(Party) =:= 1, is_binary(Role), byte_size(Role) =< 32 -> {role, Role};
party(Party = #{<<"member">> := Id}) when map_size(Party) =:= 1, is_binary(Id), byte_size(Id) =< 32 -> {member, Id};
party(_) -> invalid(?NO_RULE).

%% @doc Returns the text of 1 to 32 bytes under this key.
-spec text(binary(), #{binary() => term()}) -> binary().
text(Key, Object) ->
    case Object of
        #{Key := Text} when is_binary(Text), byte_size(Text) >= 1, byte_size(Text) =< 32 -> Text;
        #{} -> invalid(<<"\"", Key/binary, "\" must be a string of 1 to 32 bytes">>)
    end.

%% @doc Returns the whole number in this range under this key.
-spec number(binary(), {integer(), integer()}, #{binary() => term()}) -> integer().
number(Key, {Min, Max}, Object) ->
    case Object of
        #{Key := Number} when is_integer(Number), Number >= Min, Number =< Max -> Number;
        #{} -> invalid(iolist_to_binary(io_lib:format("\"~s\" must be a whole number from ~b to ~b", [Key, Min, Max])))
    end.

%% @doc Returns the boolean under this key, or `false' if the key is missing.
-spec flag(binary(), #{binary() => term()}) -> boolean().
flag(Key, Object) ->
    case maps:get(Key, Object, false) of
        Flag when is_boolean(Flag) -> Flag;
        _ -> invalid(<<"\"", Key/binary, "\" must be true or false">>)
    end.

%% @doc Returns a room's description as JSON. `Callers' has the callers' names by id.
-spec room(lobby_room:name(), lobby_room_core:description(), #{lobby_rules:id() => binary()}) -> json().
room(Name, Description, Callers) ->
    #{members := Members, rules := Rules, flows := Flows, gateway := Gateway, context := Context,
      settings := Settings, sends := Sends} = Description,
    #{name => Name, gateway => or_null(Gateway), context => or_null(Context),
      locked => maps:get(locked, Settings, false), door => maps:get(door, Settings, false),
      rules => [written(Rule) || Rule <- Rules],
      members => [(member(Row, Termination, Callers))#{sends => maps:get(Id, Sends, null)}
                  || {Row = #{id := Id}, Termination} <- lists:sort(Members)],
      flows => [#{talker => Talker, listener => Listener} || {Talker, Listener} <- Flows]}.

member(Row = #{id := Id}, Termination, Callers) ->
    IsByLink = case Row of #{call := {web, _}} -> true; _ -> false end,
    Shown = (maps:with([id, role, muted, isolated, waiting, direction], Row))#{link => IsByLink},
    With = case Termination of none -> Shown; _ -> Shown#{termination => Termination} end,
    maps:merge(With, named(Row, maps:get(Id, Callers, <<>>))).

%% @doc Returns a caller's names. A proved or asserted name takes precedence, because callers can choose any name for
%% themselves.
-spec named(lobby_person:row() | #{}, Says :: binary()) -> #{caller := binary(), says := binary(), proved := boolean()}.
named(#{name := Name}, Says) -> #{caller => Name, says => Says, proved => true};
named(_, Says) -> #{caller => Says, says => Says, proved => false}.

or_null(Atom) when is_atom(Atom) -> null;
or_null(Value) -> Value.

written({Verdict, Talker, Listener}) ->
    #{hears => Verdict =:= allow, talker => written_party(Talker), listener => written_party(Listener)}.

written_party(everyone) -> <<"everyone">>;
written_party({Kind, Name}) -> #{Kind => Name}.
