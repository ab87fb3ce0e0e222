program gauge(output);
var low, high, i: integer;

procedure rise(var level: integer; most: integer);
begin
  if level < most then level := level + 1
end;

begin
  low := 0;
  high := 10;
  for i := 1 to 5 do begin
    rise(low, 3);
    rise(high, 20)
  end;
  writeln(low div high)
end.
