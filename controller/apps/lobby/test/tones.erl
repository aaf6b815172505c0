%% Tones in G.711 (mu-law), for tests that search each packet for the tones of talkers.
-module(tones).

-export([packet/2, pitches/2, file/2]).

-define(RATE, 8000).
-define(SAMPLES, 160).
%% The minimum loudness of a tone. A browser's tone has 8000, and a phone's tone 4000. A gap in a tone has all pitches,
%% but less loudly.
-define(LOUD, 1000).

%% Returns a packet with a tone. It can be repeated without a click if the pitch is a multiple of 50 Hz.
packet(Pitch, Loudness) ->
    << <<(code(round(Loudness * math:sin(2 * math:pi() * Pitch * N / ?RATE))))>> || N <- lists:seq(0, ?SAMPLES - 1) >>.

code(Sample) ->
    element(2, lists:min([{abs(sample(Code) - Sample), Code} || Code <- lists:seq(0, 255)])).

sample(Code) when Code < 128 -> -level(127 - Code);
sample(Code) -> level(255 - Code).

level(Code) -> 4 * (((2 * (Code band 15) + 33) bsl (Code bsr 4)) - 33).

%% Returns those of the given pitches that a packet contains.
pitches(Packet, Pitches) ->
    Samples = [sample(Code) || <<Code>> <= Packet],
    [Pitch || Pitch <- Pitches, loudness(Samples, Pitch) > ?LOUD].

%% Returns the loudness of a pitch, by Goertzel's algorithm.
loudness(Samples, Pitch) ->
    Turn = 2 * math:cos(2 * math:pi() * Pitch / ?RATE),
    {Last, Before} = lists:foldl(fun(Sample, {A, B}) -> {Sample + Turn * A - B, A} end, {0.0, 0.0}, Samples),
    2 * math:sqrt(max(0.0, Last * Last + Before * Before - Turn * Last * Before)) / ?SAMPLES.

%% Writes ten seconds of a tone to a WAV file for a browser's microphone.
file(File, Pitch) ->
    Samples = << <<(round(8000 * math:sin(2 * math:pi() * Pitch * N / 48000))):16/little-signed>> || N <- lists:seq(1, 480000) >>,
    Size = byte_size(Samples),
    ok = file:write_file(File, <<"RIFF", (Size + 36):32/little, "WAVEfmt ", 16:32/little, 1:16/little, 1:16/little, 48000:32/little, 96000:32/little,
                                 2:16/little, 16:16/little, "data", Size:32/little, Samples/binary>>).
