"""The last table that a script printed as a picture: llama run script.llama | python3 picture.py > plate.pgm"""
import sys

WIDTH, HOTTEST = 32, 1000
numbers = sys.stdin.read().split('t\n')[-1].split()
print(f'P2\n{WIDTH} {len(numbers) // WIDTH}\n{HOTTEST}')
for at in range(0, len(numbers), WIDTH):
    print(*numbers[at:at + WIDTH])
