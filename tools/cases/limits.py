"""The limits of what commands put. They leave no room, so nothing that puts a role or a pool stands behind them."""
from .requests import admin, puts

# A thousand roles and no more, and a thousand pools with that of the start; a name that is there is put again.
def fills(command, names):
    for name in names:
        puts(dict(command, **name), at=0)


fills({'kind': 'role', 'permissions': []}, [{'role': f'roles/r{number}'} for number in range(5, 1000)])
admin('A6', {'kind': 'role', 'role': 'roles/r1000', 'permissions': []})
admin('A3 permissions', {'kind': 'role', 'role': 'roles/r1000', 'permissions': ['a.b']})
puts({'kind': 'role', 'role': 'roles/r999', 'permissions': []}, at=0)
fills({'kind': 'pool', 'project': '7'}, [{'pool': f'pool-{number}'} for number in range(3, 1000)])
admin('A6', {'kind': 'pool', 'project': '7', 'pool': 'pool-1000'})
puts({'kind': 'pool', 'project': '7', 'pool': 'pool-999'}, at=0)
