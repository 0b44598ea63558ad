"""How xdist hands out tests to the processes that run them."""

from xdist.scheduler import LoadGroupScheduling


class Groups(LoadGroupScheduling):
    """Hands out tests by groups. Where a process is killed, the test that it was at isn't tried again, and all others still run: xdist
    itself would kill the next process by it, or wait for ever for one that has a single test left."""

    def remove_node(self, node):
        work = self.assigned_work.pop(node)
        left = [(group, test) for group, tests in work.items() for test, is_done in tests.items() if not is_done]
        if not left:
            return None
        (group, killed), *_ = left
        work[group][killed] = True
        self.workqueue.update((name, tests) for name, tests in work.items() if not all(tests.values()))
        for other in self.nodes:
            self._reschedule(other)
        return killed

    def _reschedule(self, node):
        while self.workqueue and not node.shutting_down and self._pending_of(self.assigned_work[node]) < 2:
            self._assign_work_unit(node)
        super()._reschedule(node)
