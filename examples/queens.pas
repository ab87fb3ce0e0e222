program queens(input, output);
{ How many ways there are to put n queens on a board of n times n squares, none of which attacks another. }
const most = 8;
type size = 1..most;
var
  n: size;
  free: array[1..most] of Boolean;
  up: array[2..16] of Boolean;
  down: array[-7..7] of Boolean;
  count, i: integer;

procedure place(row: integer);
var column: integer;
begin
  if row > n then count := count + 1
  else
    for column := 1 to n do
      if free[column] and up[row + column] and down[row - column] then begin
        free[column] := false;
        up[row + column] := false;
        down[row - column] := false;
        place(row + 1);
        free[column] := true;
        up[row + column] := true;
        down[row - column] := true
      end
end;

begin
  read(n);
  for i := 1 to most do free[i] := true;
  for i := 2 to 16 do up[i] := true;
  for i := -7 to 7 do down[i] := true;
  count := 0;
  place(1);
  writeln(n, ' queens: ', count, ' ways')
end.
